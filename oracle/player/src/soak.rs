//! Random lists of calls, one after the other, with all checks and a table of what occurred.

use std::{
    collections::BTreeMap,
    panic::{AssertUnwindSafe, catch_unwind},
};

use crate::{
    call::{Answer, Call, Lent, Machine},
    case,
    check::Checker,
    compare, generate,
    observe::{Events, observe},
    snapshot::Snapshot,
    step::{After, Step},
    text,
};

/// Every so many lists one is played again in single ticks, unless it takes too many.
const OBSERVED: u64 = 8;
const MOST_TICKS: u64 = 4_000;

/// Makes a new machine.
pub type New<'a> = &'a dyn Fn() -> Box<dyn Machine>;

/// Why a list failed, and the list as a case.
pub struct Failure {
    pub report: String,
    pub case: String,
}

#[derive(Default)]
pub struct Soak {
    lists: u64,
    observed: u64,
    calls: u64,
    ticks: u64,
    /// By answer's number and call.
    answers: BTreeMap<(u32, &'static str), u64>,
    events: Events,
}

impl Soak {
    /// Plays the list of a seed; a panic of the machine is a failure too.
    pub fn list(&mut self, seed: u64, new: New<'_>) -> Result<(), Failure> {
        let mut list: Vec<(Step, After)> = Vec::new();
        let played = catch_unwind(AssertUnwindSafe(|| self.play(seed, new, &mut list)));
        let (report, last) = match played {
            Ok(Ok(())) => return Ok(()),
            Ok(Err(report)) => (report, None),
            Err(_) => (format!("seed {seed}: the machine panicked after {} calls", list.len()), panicking(seed, new)),
        };
        let case = case::write(&format!("seed-{seed}"), "a random list that failed", &list, last.as_ref());
        Err(Failure { report, case })
    }

    fn play(&mut self, seed: u64, new: New<'_>, list: &mut Vec<(Step, After)>) -> Result<(), String> {
        let mut machine = new();
        let mut checker = Checker::new(machine.snapshot());
        let mut broken = Ok(());
        generate::list(seed, &mut *machine, &mut |step, after| {
            self.count(step, after);
            list.push((step.clone(), after.clone()));
            if broken.is_ok() {
                broken = checker.check(step, after).map_err(|what| (list.len(), what));
            }
        });
        self.lists += 1;
        if let Err((number, what)) = broken {
            list.truncate(number);
            let dump = list[number - 1].1.dump(&list[number - 1].0.call).join("\n    ");
            return Err(format!("seed {seed}: call {number}: {what}\n    {dump}"));
        }
        let ticks: u64 = list.iter().map(|(_, after)| u64::from(after.answer.ticks)).sum();
        if !seed.is_multiple_of(OBSERVED) || ticks > MOST_TICKS {
            return Ok(());
        }
        self.observed += 1;
        match observe(list, &mut *new(), &mut self.events) {
            None => Ok(()),
            Some(difference) => Err(format!("in single ticks: {}", compare::report(seed, list, &difference))),
        }
    }

    fn count(&mut self, step: &Step, after: &After) {
        self.calls += 1;
        self.ticks += u64::from(after.answer.ticks);
        *self.answers.entry((after.answer.code, call_name(&step.call))).or_default() += 1;
    }

    /// The table of answers by call, and what was seen in single ticks.
    pub fn tally(&self) -> String {
        let mut lines =
            vec![format!("{} lists, {} calls, {} ticks", self.lists, self.calls, self.ticks), String::new()];
        lines.push(format!("{:<12}{:>9}{}", "answer", "all", CALLS.map(|call| format!("{call:>12}")).concat()));
        let mut codes: Vec<u32> = self.answers.keys().map(|&(code, _)| code).collect();
        codes.dedup();
        for code in codes {
            let times = CALLS.map(|call| self.answers.get(&(code, call)).copied().unwrap_or(0));
            let columns = times.map(|times| format!("{times:>12}")).concat();
            lines.push(format!("{:<12}{:>9}{columns}", text::answer(code), times.iter().sum::<u64>()));
        }
        lines.push(format!("\nin single ticks, {} lists:", self.observed));
        lines.extend(self.events.lines());
        lines.push(format!("opcodes never run: {}", self.events.opcodes_never_run().join(" ")));
        lines.join("\n")
    }
}

/// A machine that remembers the last call.
struct Recorder {
    machine: Box<dyn Machine>,
    last: Option<Step>,
}

impl Machine for Recorder {
    fn call(&mut self, lent: Lent<'_>, call: &Call) -> Answer {
        let Lent { image, loans, fuel, page } = &lent;
        let (image, fuel, page) = ((*image).into(), fuel.to_vec(), (*page).into());
        self.last = Some(Step { image, loans: *loans, fuel, page, call: call.clone() });
        self.machine.call(lent, call)
    }

    fn snapshot(&self) -> Snapshot {
        self.machine.snapshot()
    }
}

/// The call of the list in which the machine panics.
fn panicking(seed: u64, new: New<'_>) -> Option<Step> {
    let mut recorder = Recorder { machine: new(), last: None };
    let played = catch_unwind(AssertUnwindSafe(|| generate::list(seed, &mut recorder, &mut |_, _| ())));
    if played.is_err() { recorder.last } else { None }
}

const CALLS: [&str; 11] = [
    "load",
    "start",
    "run",
    "answer",
    "clear",
    "text",
    "bytes",
    "set_global",
    "get_global",
    "set_builtin",
    "get_builtin",
];

fn call_name(call: &Call) -> &'static str {
    CALLS[match call {
        Call::Load => 0,
        Call::Start { .. } => 1,
        Call::Run { .. } => 2,
        Call::Answer { .. } => 3,
        Call::Clear => 4,
        Call::Text { .. } => 5,
        Call::Bytes { .. } => 6,
        Call::SetGlobal { .. } => 7,
        Call::GetGlobal { .. } => 8,
        Call::SetBuiltin { .. } => 9,
        Call::GetBuiltin { .. } => 10,
    }]
}

#[cfg(test)]
mod tests {
    use super::*;
    use crate::{call::code, driver::Driver};

    /// A driver that takes one tick too many when it pauses, or panics instead.
    struct Broken {
        driver: Driver,
        panics: bool,
    }

    impl Machine for Broken {
        fn call(&mut self, lent: Lent<'_>, call: &Call) -> Answer {
            let mut answer = self.driver.call(lent, call);
            if answer.code == code::PAUSED {
                assert!(!self.panics, "paused");
                answer.ticks += 1;
            }
            answer
        }

        fn snapshot(&self) -> Snapshot {
            self.driver.snapshot()
        }
    }

    #[test]
    fn a_broken_machine_is_found_and_its_list_kept() {
        for (panics, what) in [(false, "more ticks than asked for"), (true, "the machine panicked")] {
            let new = || -> Box<dyn Machine> { Box::new(Broken { driver: Driver::new(), panics }) };
            let failure = (1..8).find_map(|seed| Soak::default().list(seed, &new).err()).expect("no pause in 7 lists");
            assert!(failure.report.contains(what), "{}", failure.report);
            assert_eq!(failure.case.trim_end().lines().last().is_some_and(|line| line.starts_with("run ")), panics);
        }
    }

    #[test]
    fn random_lists_keep_every_rule_and_reach_every_answer() {
        let mut soak = Soak::default();
        for seed in 0..400 {
            if let Err(failure) = soak.list(seed, &|| Box::new(Driver::new())) {
                panic!("{}\n{}", failure.report, failure.case);
            }
        }
        let given = |number| soak.answers.range((number, "")..(number + 1, "")).map(|(_, times)| times).sum::<u64>();
        for number in (1..=7).chain(10..=16).chain(100..=104) {
            assert!(given(number) > 0, "{} never occurred", text::answer(number));
        }
    }
}
