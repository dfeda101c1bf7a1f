//! Random lists of calls, every one of them carried out by ours beside the oracle, on one memory that is kept from call to call.

use std::{
    fs,
    time::{Duration, Instant},
};

use player::{
    call::Machine,
    case,
    driver::Driver,
    generate,
    step::{After, Step},
};

use crate::{coverage::Coverage, kept::Kept, values::Counts};

/// How the list of a seed is made.
type Of = fn(u64, &mut dyn Machine, &mut dyn FnMut(&Step, &After));

/// Each seed has two lists: one of all that programs do, one near the limits.
const LISTS: [Of; 2] = [generate::list, generate::tight_list];

#[derive(Default)]
pub struct Lists {
    kept: Kept,
    pub counts: Counts,
    /// If it is asked for.
    pub coverage: Option<Coverage>,
    lists: u64,
    ticks: u64,
}

impl Lists {
    /// Plays the lists of these seeds, up to the last second.
    pub fn play(&mut self, from: u64, lists: u64, seconds: Option<u64>) -> Result<(), String> {
        let begin = Instant::now();
        let limit = seconds.map(Duration::from_secs);
        (from..from + lists)
            .take_while(|_| limit.is_none_or(|limit| begin.elapsed() < limit))
            .try_for_each(|seed| LISTS.iter().try_for_each(|of| self.list(of, seed)))
    }

    /// Plays the list of a seed; one that differs is kept as a case.
    fn list(&mut self, of: &Of, seed: u64) -> Result<(), String> {
        let mut differs = Ok(());
        let mut list: Vec<(Step, After)> = Vec::new();
        self.kept.renew(seed);
        self.coverage.iter_mut().for_each(Coverage::begin);
        of(seed, &mut Driver::new(), &mut |step, after| {
            if differs.is_err() {
                return;
            }
            differs = self.kept.step(step, after);
            self.count(step, after);
            if differs.is_err() {
                list.push((step.clone(), after.clone()));
            }
        });
        self.lists += 1;
        differs.and_then(|()| self.kept.end()).map_err(|what| {
            let last = list.last().map_or(String::new(), |(step, _)| case::call_text(&step.call));
            format!("seed {seed}: {last}\n{what}\n{}", keep(seed, self.steps(of, seed)))
        })
    }

    /// The list again, up to the call that differs.
    fn steps(&mut self, of: &Of, seed: u64) -> Vec<(Step, After)> {
        let mut list = Vec::new();
        let mut differs = false;
        self.kept.renew(seed);
        of(seed, &mut Driver::new(), &mut |step, after| {
            if !differs {
                differs = self.kept.step(step, after).is_err();
                list.push((step.clone(), after.clone()));
            }
        });
        list
    }

    fn count(&mut self, step: &Step, after: &After) {
        self.ticks += u64::from(after.answer.ticks);
        *self.counts.entry((name(step), after.answer.code)).or_default() += 1;
        if let Some(coverage) = &mut self.coverage {
            coverage.see(step, after);
        }
    }

    pub fn tally(&self) -> String {
        format!(
            "{} lists, {} ticks; {} runs refused at their first opcode wrote behind the used cells of the live stack\n{}",
            self.lists,
            self.ticks,
            self.kept.touched,
            self.coverage.as_ref().map_or(String::new(), Coverage::tally)
        )
    }
}

/// The call's name as in `oracle/README.md`.
fn name(step: &Step) -> &'static str {
    crate::values::name(&step.call)
}

/// Keeps a list as a case of what the oracle leaves.
fn keep(seed: u64, list: Vec<(Step, After)>) -> String {
    let file = format!("seed-{seed}.case");
    let text = case::write(&format!("seed-{seed}"), "a random list on which ours differs", &list, None);
    match fs::write(&file, text) {
        Ok(()) => format!("kept as {file}"),
        Err(error) => format!("not kept: {error}"),
    }
}
