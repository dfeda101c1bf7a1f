//! Good states with a change, and calls on them: the refusal must be that of the model, or the call that on what the bytes now hold.

use std::rc::Rc;

use player::{
    call::{Call, Loans},
    cell::Cell,
    damage::damage,
    generate::{self, State},
    hold::Ready,
    image::{self, Program},
    memory::write,
    random::Random,
    snapshot::{FrameKind, Object, Outcome, Snapshot},
};

use crate::{
    held::{self, Image, Parsed},
    near::{Names, near, number, page},
    odd::Odd,
    running::{fuel, running_call},
    trial::{Lending, Trial},
};

/// States that use more cells are left out.
const MOST_CELLS: usize = 500;
/// Every so many states has each byte of all its globals and builtins changed, the others of those that are not null.
const WHOLE: u64 = 13;
/// Kinds of changes.
const KINDS: [&str; 5] = ["one byte", "one cell", "two cells", "one thing", "another image"];
/// Random changes of a state, and images that it is lent with.
const CHANGES: usize = 1_500;
const IMAGES: usize = 300;
/// What is looked for in states, in turn.
const FEATURES: usize = 10;
/// Cells of the state block in front of the globals.
const HEAD: usize = 4;

/// How often a kind of change was answered with a refusal of the image, with 10, with 7, and otherwise; every second call is a start, run or answer.
#[derive(Clone, Copy, Default)]
struct Count {
    image: u64,
    not_loaded: u64,
    refused: u64,
    accepted: u64,
    /// Of these starts, runs and answers; and on states that the Rust can't hold.
    running: u64,
    unknown: u64,
}

#[derive(Default)]
pub struct Damage {
    states: u64,
    /// By the kind of change.
    counts: [Count; 5],
    /// How many states have each of `holds`.
    held: [(&'static str, u64); FEATURES],
}

impl Damage {
    pub fn calls(&self) -> u64 {
        self.counts.iter().map(|count| count.image + count.not_loaded + count.refused + count.accepted).sum()
    }

    pub fn tally(&self) -> String {
        let mut lines = vec![format!("{} calls on {} states", self.calls(), self.states)];
        let head = ["7", "10", "1 to 4", "others", "running", "no Rust"].map(|name| format!(" {name:>9}"));
        lines.push(format!("{:<14}{}", "change", head.concat()));
        for (name, count) in KINDS.iter().zip(self.counts) {
            let Count { image, not_loaded, refused, accepted, running, unknown } = count;
            let columns = [refused, not_loaded, image, accepted, running, unknown].map(|count| format!(" {count:>9}"));
            lines.push(format!("{name:<14}{}", columns.concat()));
        }
        lines.extend(self.held.iter().map(|(name, count)| format!("{count:>6} states with {name}")));
        lines.join("\n")
    }

    /// Changes one state of the seed's list, if it has one with what is looked for next.
    pub fn seed(&mut self, seed: u64) -> Result<(), String> {
        let wanted = self.states as usize % FEATURES;
        let fits = |State { snapshot, .. }: &State| {
            holds(snapshot)[wanted].1 && snapshot.live() + snapshot.stored() <= MOST_CELLS
        };
        let states: Vec<State> = generate::states(seed).into_iter().filter(fits).collect();
        if states.is_empty() {
            return Ok(());
        }
        let mut random = Random::new(!seed);
        let state = random.pick(&states);
        for (held, (name, holds)) in self.held.iter_mut().zip(holds(&state.snapshot)) {
            *held = (name, held.1 + u64::from(holds));
        }
        let whole = self.states.is_multiple_of(WHOLE);
        self.states += 1;
        Damaged::new(random, state)?.run(whole, &mut self.counts).map_err(|what| format!("seed {seed}: {what}"))
    }
}

/// What a state has of what is not in every one.
fn holds(snapshot: &Snapshot) -> [(&'static str, bool); FEATURES] {
    let any = |kind: fn(&FrameKind) -> bool| snapshot.frames.iter().any(|frame| kind(&frame.kind));
    let of = |kind: fn(&Object) -> bool| snapshot.store.iter().any(kind);
    [
        ("Lucia frames", any(|kind| matches!(kind, FrameKind::Lucia { .. }))),
        ("host frames", any(|kind| matches!(kind, FrameKind::Host { .. }))),
        ("effect frames", any(|kind| matches!(kind, FrameKind::Effect { .. }))),
        ("handlers", snapshot.frames.iter().any(|frame| !frame.handlers.is_empty())),
        ("continuations", of(|object| matches!(object, Object::Continuation(_)))),
        ("lists", of(|object| matches!(object, Object::List(_)))),
        ("a result of arguments", matches!(snapshot.result, Outcome::Effect { .. })),
        ("another result", matches!(snapshot.result, Outcome::Value(_) | Outcome::Error(_))),
        ("a wait", snapshot.wait),
        ("an unfinished slice", snapshot.left < 64),
    ]
}

/// A state that is changed again and again.
struct Damaged<'a> {
    random: Random,
    image: &'a [u8],
    program: Rc<Program>,
    ready: Rc<Ready>,
    names: Names,
    snapshot: &'a Snapshot,
    /// State block, live stack and store, with a few cells behind the used ones.
    good: [Vec<u8>; 3],
    /// Bytes used of each.
    used: [usize; 3],
    turn: usize,
}

impl<'a> Damaged<'a> {
    fn new(mut random: Random, state: &'a State) -> Result<Damaged<'a>, String> {
        let program =
            image::parse(&state.image).map_err(|number| format!("a loaded image is refused with {number}"))?;
        let names = Names::of(&program, &state.snapshot);
        let mut good = write(&state.snapshot).bytes();
        let used = good.each_ref().map(Vec::len);
        good[1..].iter_mut().for_each(|loan| add_free(&mut random, &names, loan));
        let ready = Rc::new(Ready::new(&state.image, program.clone()));
        let (image, program, snapshot) = (&state.image, Rc::new(program), &state.snapshot);
        Ok(Damaged { random, image, program, ready, names, snapshot, good, used, turn: 0 })
    }

    fn run(mut self, whole: bool, counts: &mut [Count; 5]) -> Result<(), String> {
        let [byte, cell, two, thing, image] = counts;
        self.change_bytes(whole, byte)?;
        self.change_cells(1, cell)?;
        self.change_cells(2, two)?;
        self.change_things(thing)?;
        self.change_image(image)
    }

    /// Each byte in turn.
    fn change_bytes(&mut self, whole: bool, count: &mut Count) -> Result<(), String> {
        let any = 1 + self.random.below(255) as u8;
        let patterns = |place| [1, 16, 128, 255, any].map(|pattern| (place, pattern));
        self.places(whole).into_iter().flat_map(patterns).try_for_each(|((loan, at), pattern)| {
            let mut damaged = self.good.clone();
            damaged[loan][at] ^= pattern;
            let tried = self.try_it(&damaged, count);
            tried.map_err(|what| format!("loan {loan} byte {at} ^ {pattern}: {what}"))
        })
    }

    /// So many cells at once.
    fn change_cells(&mut self, cells: usize, count: &mut Count) -> Result<(), String> {
        (0..CHANGES).try_for_each(|_| {
            let mut damaged = self.good.clone();
            (0..cells).for_each(|_| self.change_cell(&mut damaged));
            self.try_it(&damaged, count)
        })
    }

    /// A frame, an object, the result or the turn.
    fn change_things(&mut self, count: &mut Count) -> Result<(), String> {
        (0..2 * CHANGES).try_for_each(|_| {
            let odd = Odd { program: &self.program, names: &self.names, good: self.snapshot };
            let mut damaged = write(&odd.snapshot(&mut self.random)).bytes();
            damaged[1..].iter_mut().for_each(|loan| add_free(&mut self.random, &self.names, loan));
            self.try_it(&damaged, count)
        })
    }

    /// The state as it is, with another image than the loaded one.
    fn change_image(&mut self, count: &mut Count) -> Result<(), String> {
        let good = self.good.clone();
        (0..IMAGES).try_for_each(|_| {
            let parsed = Parsed::new(damage(self.image, &mut self.random));
            self.try_with(&parsed.image(), &good, count)
        })
    }

    /// Loan and place of each byte to change.
    fn places(&self, whole: bool) -> Vec<(usize, usize)> {
        let all = (0..3).flat_map(|loan| (0..self.used[loan]).map(move |at| (loan, at)));
        let is_null = |at: usize| self.good[0][at / 16 * 16..][..16] == [0; 16];
        all.filter(|&(loan, at)| whole || loan > 0 || at < HEAD * 16 || !is_null(at)).collect()
    }

    /// A used cell gets another field, becomes another cell, or changes places with one.
    fn change_cell(&mut self, damaged: &mut [Vec<u8>; 3]) {
        let random = &mut self.random;
        let [(one, at), (other, from)] = [0, 0].map(|_| some_place(random, &self.used));
        let cell = Cell::from_bytes(&damaged[one][at..at + 16]);
        let second = Cell::from_bytes(&damaged[other][from..from + 16]);
        let new = match random.below(8) {
            0..=4 => near(random, cell),
            5 => self.names.value(random),
            6 => second,
            _ => {
                damaged[other][from..from + 16].copy_from_slice(&cell.bytes());
                second
            }
        };
        damaged[one][at..at + 16].copy_from_slice(&new.bytes());
    }

    fn try_it(&mut self, damaged: &[Vec<u8>; 3], count: &mut Count) -> Result<(), String> {
        let (program, ready) = (Rc::clone(&self.program), Rc::clone(&self.ready));
        self.try_with(&Image { bytes: self.image, program: Ok((&program, &ready)) }, damaged, count)
    }

    fn try_with(&mut self, image: &Image, damaged: &[Vec<u8>; 3], count: &mut Count) -> Result<(), String> {
        let [state, live, store] = damaged.each_ref().map(Vec::len);
        let mut lending = Lending::new(&mut self.random, damaged, Loans { state, live, store });
        self.turn += 1;
        let number = if self.turn.is_multiple_of(2) {
            self.try_running(image, &mut lending, count)?
        } else {
            let call = self.next_call();
            let page = page(&mut self.random);
            let program = image.program.map(|(program, _)| program);
            Trial { image: image.bytes, program, page: &page, call: &call }.run(&mut lending)?.code
        };
        *match number {
            10 => &mut count.not_loaded,
            7 => &mut count.refused,
            1..=4 => &mut count.image,
            _ => &mut count.accepted,
        } += 1;
        Ok(())
    }

    /// A start, run or answer, beside the Rust.
    fn try_running(&mut self, image: &Image, lending: &mut Lending, count: &mut Count) -> Result<u32, String> {
        let call = running_call(&mut self.random, &self.names, self.snapshot);
        let fuel = fuel(&mut self.random);
        let before = lending.clone();
        let (answer, known) = held::compare(image, lending, &fuel, &[], &call).map_err(|what| {
            let program = image.program.map(|(program, _)| program);
            let what = format!("{what}\nfuel {fuel:?}");
            Trial { image: image.bytes, program, page: &[], call: &call }.keep(&before, &what)
        })?;
        count.running += 1;
        count.unknown += u64::from(!known);
        Ok(answer.code)
    }

    /// The calls in turn.
    fn next_call(&mut self) -> Call {
        let random = &mut self.random;
        let (number, value) = (number(random), self.names.value(random));
        match self.turn / 2 % 7 {
            0 => Call::Clear,
            1 => Call::GetGlobal { number },
            2 => Call::SetGlobal { number, value },
            3 => Call::Text { value: self.names.text(random) },
            4 => Call::GetBuiltin { number },
            5 => Call::SetBuiltin { number, value },
            _ => Call::Bytes { value: self.names.bytes(random) },
        }
    }
}

/// A used cell: mostly of live stack and store, or in the head of the state block.
fn some_place(random: &mut Random, used: &[usize; 3]) -> (usize, usize) {
    let loan = random.below(3);
    let cells = used[loan] / 16;
    match loan {
        0 if random.chance(3, 4) => (0, 16 * random.below(HEAD)),
        _ if cells == 0 => (0, 16 * random.below(HEAD)),
        _ => (loan, 16 * random.below(cells)),
    }
}

/// Adds a few free cells, often good ones, so that a longer count can be accepted.
fn add_free(random: &mut Random, names: &Names, loan: &mut Vec<u8>) {
    for _ in 0..random.below(4) {
        let cell = if loan.is_empty() { names.value(random) } else { some_cell(random, loan) };
        loan.extend(cell.bytes());
    }
    loan.extend(vec![0; random.below(16)]);
}

fn some_cell(random: &mut Random, loan: &[u8]) -> Cell {
    let at = 16 * random.below(loan.len() / 16);
    Cell::from_bytes(&loan[at..at + 16])
}
