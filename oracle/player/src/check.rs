//! What must hold after every call of any list (document 01, "From the state", "Forms that stand in the way").

use crate::{
    call::{Call, LIVE_CELLS, Loans, STORE_CELLS, code},
    form::{Broken, Form, SLICE, must},
    image::{self, Program},
    snapshot::{Outcome, Snapshot},
    step::{After, Step},
};

/// Follows one list from a new machine on.
pub struct Checker {
    program: Option<Program>,
    before: Snapshot,
}

impl Checker {
    pub fn new(before: Snapshot) -> Checker {
        Checker { program: None, before }
    }

    pub fn check(&mut self, step: &Step, after: &After) -> Broken {
        let loaded = step.call == Call::Load && after.answer.code == code::ACCEPTED;
        if loaded {
            let program =
                image::parse(&step.image).map_err(|number| format!("a load of an image to refuse with {number}"))?;
            self.program = Some(program);
        }
        must(may_answer(&step.call, after.answer.code), "an answer that this call never gives")?;
        check_fuel(step, after)?;
        self.check_change(step, after)?;
        check_run(step, after)?;
        if after.snapshot != self.before {
            check_costs(step.loans, &after.snapshot)?;
            let old = if loaded { 0 } else { self.before.store.len() };
            must(loaded || after.snapshot.store.starts_with(&self.before.store), "the store changed")?;
            let program = self.program.as_ref().ok_or("something changed with nothing loaded")?;
            Form::new(program, &after.snapshot).check(old)?;
        }
        self.before = after.snapshot.clone();
        Ok(())
    }

    /// Which parts of memory the call may change, and how they then are.
    fn check_change(&self, step: &Step, after: &After) -> Broken {
        let (before, now) = (&self.before, &after.snapshot);
        let mut expected = before.clone();
        match &step.call {
            Call::Run { .. } if after.answer.ticks > 0 || is_accepted(after) => return Ok(()),
            _ if !is_accepted(after) => {}
            Call::Load => return must(*now == self.just_loaded(), "a load leaves something else"),
            Call::Start { .. } | Call::Answer { .. } => {
                (expected.frames, expected.result) = (now.frames.clone(), now.result.clone());
                expected.wait = false;
                expected.store.clone_from(&now.store);
            }
            Call::Clear => {
                (expected.frames, expected.result) = (Vec::new(), Outcome::None);
                (expected.wait, expected.left) = (false, SLICE);
            }
            Call::SetGlobal { number, value } => expected.globals[*number as usize] = *value,
            Call::SetBuiltin { number, value } => expected.builtins[*number as usize] = *value,
            Call::GetGlobal { number } => must(after.answer.value == now.globals[*number as usize], "another value")?,
            Call::GetBuiltin { number } => must(after.answer.value == now.builtins[*number as usize], "another value")?,
            Call::Run { .. } | Call::Text { .. } | Call::Bytes { .. } => {}
        }
        must(*now == expected, "the call changed what it must leave")
    }

    fn just_loaded(&self) -> Snapshot {
        Snapshot::just_loaded(self.program.as_ref().map_or(0, |program| program.codes[0].captures.len()))
    }
}

fn is_accepted(after: &After) -> bool {
    !(1..code::DONE).contains(&after.answer.code)
}

/// The answers and refusals that a call can give at all.
fn may_answer(call: &Call, number: u32) -> bool {
    let of_call = match call {
        Call::Load => matches!(number, code::ACCEPTED | 15),
        Call::Start { .. } => matches!(number, code::ACCEPTED | 5 | 7 | 10 | 11 | 14 | 15),
        Call::Run { .. } => matches!(number, code::DONE..=code::HOST | 7 | 10..=16),
        Call::Answer { .. } => matches!(number, code::GO_ON | code::OUT_OF_FUEL | 5 | 7 | 10 | 11 | 13..=16),
        Call::Clear => matches!(number, code::ACCEPTED | 7 | 10),
        _ => matches!(number, code::ACCEPTED | 5 | 7 | 10),
    };
    of_call || matches!(number, 1..=4 | 6)
}

/// Fuel is altered by runs and answers alone, never rises, and its mark is left.
fn check_fuel(step: &Step, after: &After) -> Broken {
    let charges = match &step.call {
        Call::Run { .. } => is_accepted(after) || after.answer.ticks > 0,
        Call::Answer { .. } => is_accepted(after),
        _ => false,
    };
    if !charges {
        return must(after.fuel == step.fuel, "the fuel changed");
    }
    let number = |bytes: &[u8]| bytes[..4].try_into().map(i32::from_le_bytes).unwrap_or_default();
    must(after.fuel.len() == 5 && after.fuel[4] == step.fuel[4], "the mark changed")?;
    must(number(&after.fuel) <= number(&step.fuel), "the fuel rose")
}

/// What an answer to a run says of the ticks and of what is left.
fn check_run(step: &Step, after: &After) -> Broken {
    let Call::Run { ticks } = step.call else {
        return must(after.answer.ticks == 0, "ticks without a run");
    };
    let now = &after.snapshot;
    let is_done = now.frames.is_empty() || now.result != Outcome::None;
    must(after.answer.ticks <= ticks, "more ticks than asked for")?;
    match after.answer.code {
        code::DONE => must(is_done, "done with frames and no result"),
        code::HOST => must(now.wait, "host without a wait"),
        code::PAUSED => must(after.answer.ticks == ticks && !is_done && !now.wait, "paused too early"),
        code::OUT_OF_FUEL => must(after.answer.ticks > 0, "out of fuel without a step"),
        _ => Ok(()),
    }
}

/// The memory used is inside the memory lent.
fn check_costs(loans: Loans, snapshot: &Snapshot) -> Broken {
    must(snapshot.live() <= (loans.live / 16).min(LIVE_CELLS), "more live cells than lent")?;
    must(snapshot.stored() <= (loans.store / 16).min(STORE_CELLS), "more store cells than lent")
}

#[cfg(test)]
mod tests {
    use std::rc::Rc;

    use super::*;
    use crate::{
        call::Answer,
        cell::{Cell, tag},
        snapshot::{Frame, FrameKind},
        step::fuel_bytes,
        tree::{CodeTree, encode},
    };

    /// A list of one load, and what it leaves.
    fn loaded() -> (Step, After) {
        let image = encode(&CodeTree { opcodes: vec![(40, 0)], ..CodeTree::default() });
        let step = Step {
            image: image.into(),
            loans: Loans::default(),
            fuel: fuel_bytes(5, 0),
            page: Rc::default(),
            call: Call::Load,
        };
        let snapshot = Checker { program: None, before: Snapshot::nothing_loaded() }.just_loaded();
        (step.clone(), After { answer: Answer::default(), fuel: step.fuel, snapshot })
    }

    /// What the checker says of the load, then of a call that leaves memory so.
    fn judged(call: Call, change: fn(&mut After)) -> Broken {
        let (mut step, mut after) = loaded();
        let mut checker = Checker::new(Snapshot::nothing_loaded());
        checker.check(&step, &after)?;
        step.call = call;
        change(&mut after);
        checker.check(&step, &after)
    }

    #[test]
    fn what_a_call_must_leave_is_compared() {
        assert_eq!(judged(Call::Clear, |_| ()), Ok(()));
        let set = Call::SetGlobal { number: 3, value: Cell::int(1) };
        assert_eq!(judged(set.clone(), |after| after.snapshot.globals[3] = Cell::int(1)), Ok(()));
        assert!(judged(set, |_| ()).is_err());
        assert!(judged(Call::Clear, |after| after.fuel[0] = 4).is_err());
        assert!(judged(Call::Clear, |after| after.answer.code = 12).is_err());
        assert!(judged(Call::Run { ticks: 1 }, |after| after.answer.code = code::PAUSED).is_err());
    }

    #[test]
    fn memory_out_of_form_is_found() {
        let frame = |place, stack| Frame {
            kind: FrameKind::Lucia { closure: 0, place },
            locals: vec![],
            handlers: vec![],
            stack,
        };
        let start = Call::Start { function: Cell::NULL, args: vec![] };
        let judged_frame = |frame: Frame| {
            let (mut step, mut after) = loaded();
            let mut checker = Checker::new(Snapshot::nothing_loaded());
            checker.check(&step, &after)?;
            step.call = start.clone();
            after.snapshot.frames.push(frame);
            checker.check(&step, &after)
        };
        assert_eq!(judged_frame(frame(0, vec![Cell::new(tag::CLOSURE, 0, 0)])), Ok(()));
        assert!(judged_frame(frame(1, vec![])).is_err());
        assert!(judged_frame(frame(0, vec![Cell::new(tag::LIST, 0, 0)])).is_err());
        assert!(judged_frame(frame(0, vec![Cell::new(tag::CLOSURE, 1, 0)])).is_err());
        assert!(judged_frame(frame(0, vec![Cell::new(tag::BOOL, 2, 0)])).is_err());
    }
}
