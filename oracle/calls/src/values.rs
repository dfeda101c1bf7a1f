//! Random lists of calls, those that run nothing carried out by ours, by the model and by the oracle; and further calls with every kind of value on each
//! state that they lead to.

use std::collections::BTreeMap;

use player::{
    call::{Answer, Call, Lent, Loans, Machine, code},
    cell::Cell,
    driver::Driver,
    generate,
    image::{self, Program},
    memory::{read, write},
    random::Random,
    snapshot::Snapshot,
};

use crate::{
    near::{Names, number, page},
    trial::{Lending, Trial},
};

/// Further calls on each state.
const FURTHER: usize = 12;

/// How often each call got each answer.
pub type Counts = BTreeMap<(&'static str, u32), u64>;

/// The oracle, and ours beside it for the calls that run nothing.
struct Beside<'a> {
    driver: Driver,
    random: Random,
    /// The loaded image and its program.
    loaded: Option<(Vec<u8>, Program)>,
    counts: &'a mut Counts,
    /// The first difference.
    differs: Result<(), String>,
}

/// Plays the list of a seed.
pub fn list(seed: u64, counts: &mut Counts) -> Result<(), String> {
    let mut beside =
        Beside { driver: Driver::new(), random: Random::new(!seed), loaded: None, counts, differs: Ok(()) };
    generate::list(seed, &mut beside, &mut |_, _| ());
    beside.differs.map_err(|what| format!("seed {seed}: {what}"))
}

impl Machine for Beside<'_> {
    fn call(&mut self, lent: Lent<'_>, call: &Call) -> Answer {
        let (image, loans, page) = (lent.image.to_vec(), lent.loans, lent.page.to_vec());
        let before = self.driver.snapshot();
        let answer = self.driver.call(lent, call);
        let program = image::parse(&image);
        if self.differs.is_ok() && runs_nothing(call) {
            let trial = Trial { image: &image, program: program.as_ref().map_err(|&number| number), page: &page, call };
            self.differs = self.compare(&trial, loans, &before, answer);
        }
        if let (Call::Load, code::ACCEPTED, Ok(program)) = (call, answer.code, program) {
            self.loaded = Some((image, program));
        }
        if let (Ok(()), Some((image, program))) = (&self.differs, self.loaded.take()) {
            self.differs = self.further(&image, &program);
            self.loaded = Some((image, program));
        }
        answer
    }

    fn snapshot(&self) -> Snapshot {
        self.driver.snapshot()
    }
}

impl Beside<'_> {
    /// Ours from the state before the call must answer as the oracle did, and memory must hold what the oracle holds.
    fn compare(&mut self, trial: &Trial, loans: Loans, before: &Snapshot, answer: Answer) -> Result<(), String> {
        let mut lending = Lending::new(&mut self.random, &write(before).bytes(), loans);
        let copy = lending.clone();
        let ours = trial.run(&mut lending)?;
        if ours != answer {
            return Err(trial.keep(&copy, &format!("{:?}\nours {ours:?}\noracle {answer:?}", trial.call)));
        }
        *self.counts.entry((name(trial.call), answer.code)).or_default() += 1;
        let Ok(program) = trial.program else { return Ok(()) };
        let [state, live, store] = lending.shown();
        match read(program, state, live, store) {
            Ok(held) if held != self.driver.snapshot() => Err(trial.keep(&copy, "memory holds another state")),
            Err(number) if answer.code == code::ACCEPTED => Err(trial.keep(&copy, &format!("left with {number}"))),
            _ => Ok(()),
        }
    }

    /// Further calls on what the oracle holds now, after which it holds the same again.
    fn further(&mut self, image: &[u8], program: &Program) -> Result<(), String> {
        let snapshot = self.driver.snapshot();
        let names = Names::of(program, &snapshot);
        for _ in 0..FURTHER {
            let call = further_call(&mut self.random, &names);
            let lines = page(&mut self.random);
            // The image and the page may be one loan.
            let page = if self.random.chance(1, 16) { image } else { &lines };
            let loans = self.loans(&snapshot);
            let trial = Trial { image, program: Ok(program), page, call: &call };
            if call == Call::Clear {
                let mut lending = Lending::new(&mut self.random, &write(&snapshot).bytes(), loans);
                trial.run(&mut lending)?;
                continue;
            }
            let answer = self.driver.call(Lent { image, loans, fuel: &mut [], page }, &call);
            self.compare(&trial, loans, &snapshot, answer)?;
            let back = match call {
                Call::SetGlobal { number, .. } if answer.code == code::ACCEPTED => {
                    Call::SetGlobal { number, value: snapshot.globals[number as usize] }
                }
                Call::SetBuiltin { number, .. } if answer.code == code::ACCEPTED => {
                    Call::SetBuiltin { number, value: snapshot.builtins[number as usize] }
                }
                _ => continue,
            };
            self.driver.call(Lent { image, loans: Loans::default(), fuel: &mut [], page }, &back);
        }
        Ok(())
    }

    /// Just what is used, a little more or less.
    fn loans(&mut self, snapshot: &Snapshot) -> Loans {
        let mut near = |used: usize| match self.random.below(16) {
            0 => (used * 16).saturating_sub(1 + self.random.below(16)),
            1..=4 => used * 16,
            _ => used * 16 + self.random.below(100),
        };
        Loans { live: near(snapshot.live()), store: near(snapshot.stored()), ..Loans::default() }
    }
}

fn further_call(random: &mut Random, names: &Names) -> Call {
    let value: Cell = names.value(random);
    let number = number(random);
    match random.below(16) {
        0..=3 => Call::SetGlobal { number, value },
        4..=6 => Call::SetBuiltin { number, value },
        7..=8 => Call::GetGlobal { number },
        9 => Call::GetBuiltin { number },
        10..=12 => Call::Text { value: names.text(random) },
        13..=14 => Call::Bytes { value: names.bytes(random) },
        _ => Call::Clear,
    }
}

/// The name of a call.
pub fn name(call: &Call) -> &'static str {
    match call {
        Call::Load => "load",
        Call::Start { .. } => "start",
        Call::Run { .. } => "run",
        Call::Answer { .. } => "answer",
        Call::Clear => "clear",
        Call::Text { .. } => "text",
        Call::Bytes { .. } => "bytes",
        Call::SetGlobal { .. } => "set_global",
        Call::GetGlobal { .. } => "get_global",
        Call::SetBuiltin { .. } => "set_builtin",
        Call::GetBuiltin { .. } => "get_builtin",
    }
}

/// Whether the call runs nothing, so that the model of memory carries it out.
fn runs_nothing(call: &Call) -> bool {
    !matches!(call, Call::Start { .. } | Call::Run { .. } | Call::Answer { .. })
}
