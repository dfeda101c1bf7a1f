//! Plays a list again with each run cut into runs of one tick: the same must come out, and what the rules did is counted.

use std::collections::BTreeMap;

use crate::{
    call::{Call, Machine, code, kind},
    cell::{Cell, tag},
    compare::Difference,
    image::{self, Constant, Program},
    opcode,
    snapshot::{Fault, FrameKind, Object, Outcome, Snapshot},
    step::{After, Step},
};

/// How often each thing happened.
#[derive(Default)]
pub struct Events(BTreeMap<String, u64>);

impl Events {
    fn count(&mut self, what: impl Into<String>) {
        *self.0.entry(what.into()).or_default() += 1;
    }

    pub fn lines(&self) -> impl Iterator<Item = String> {
        self.0.iter().map(|(what, times)| format!("{times:>10} {what}"))
    }

    /// Opcodes that no tick carried out.
    pub fn opcodes_never_run(&self) -> Vec<&'static str> {
        let all = (0..52).filter(|&number| image::operand_kind(number).is_some()).map(opcode::name);
        all.filter(|name| !self.0.contains_key(&format!("opcode {name}"))).collect()
    }
}

/// Plays the list in single ticks and gives the first step that leaves something else.
pub fn observe(list: &[(Step, After)], machine: &mut dyn Machine, events: &mut Events) -> Option<Difference> {
    let mut observer = Observer { before: machine.snapshot(), program: None, machine, events };
    for (number, (step, expected)) in list.iter().enumerate() {
        let after = observer.step(step);
        if after != *expected {
            return Some(Difference { number, expected: expected.clone(), found: after });
        }
    }
    None
}

struct Observer<'a> {
    before: Snapshot,
    program: Option<Program>,
    machine: &'a mut dyn Machine,
    events: &'a mut Events,
}

/// What a step does, as far as it is known before it.
#[derive(Default)]
struct Deed {
    /// The effect that is performed with as many arguments as it takes.
    performed: Option<Cell>,
    /// Where a continuation is called with one value.
    resumed: Option<&'static str>,
    opcode: Option<u16>,
}

impl Observer<'_> {
    fn step(&mut self, step: &Step) -> After {
        let Call::Run { ticks } = step.call else {
            let deed = self.host_deed(&step.call);
            return self.play(step, deed);
        };
        let mut single = Step { call: Call::Run { ticks: ticks.min(1) }, ..step.clone() };
        let mut taken = 0;
        loop {
            let deed = self.tick_deed();
            let mut after = self.play(&single, deed);
            taken += after.answer.ticks;
            if after.answer.code != code::PAUSED || taken == ticks {
                after.answer.ticks = taken;
                return after;
            }
            single.fuel = after.fuel;
        }
    }

    fn play(&mut self, step: &Step, deed: Deed) -> After {
        let after = step.play(self.machine);
        let is_accepted = !(1..code::DONE).contains(&after.answer.code);
        if step.call == Call::Load && is_accepted {
            self.program = image::parse(&step.image).ok();
        } else if is_accepted && (after.answer.ticks > 0 || !matches!(step.call, Call::Run { .. })) {
            self.count(&deed, &after.snapshot);
        }
        self.before = after.snapshot.clone();
        after
    }

    /// What the next tick does.
    fn tick_deed(&self) -> Deed {
        let Some(top) = self.before.frames.last() else { return Deed::default() };
        match top.kind {
            FrameKind::Effect { effect } => {
                Deed { performed: self.fitting(effect, top.stack.len()), ..Deed::default() }
            }
            FrameKind::Host { .. } => Deed::default(),
            FrameKind::Lucia { closure, place } => {
                let Some((number, operand)) = self.opcode(closure, place) else { return Deed::default() };
                let is_call = matches!(number, opcode::CALL | opcode::RETURN_CALL) && operand == 1;
                let callee = top.stack.iter().rev().nth(1);
                let resumes = is_call && callee.is_some_and(|callee| callee.tag == tag::CONTINUATION);
                Deed { resumed: resumes.then(|| opcode::name(number)), opcode: Some(number), performed: None }
            }
        }
    }

    /// What a start or an answer does.
    fn host_deed(&self, call: &Call) -> Deed {
        let resumes = |function: Cell, args: &[u8]| function.tag == tag::CONTINUATION && args.len() == 16;
        match call {
            Call::Start { function, args } => {
                Deed { resumed: resumes(*function, args).then_some("start"), ..Deed::default() }
            }
            Call::Answer { kind: kind::PERFORM | kind::TAIL_PERFORM, subject, args, .. } => {
                Deed { performed: self.fitting(*subject, args.len() / 16), ..Deed::default() }
            }
            Call::Answer { kind: kind::CALL, subject, args, .. } => {
                Deed { resumed: resumes(*subject, args).then_some("answered call"), ..Deed::default() }
            }
            Call::Answer { kind: kind::TAIL_CALL, subject, args, .. } => {
                Deed { resumed: resumes(*subject, args).then_some("answered tail call"), ..Deed::default() }
            }
            _ => Deed::default(),
        }
    }

    fn opcode(&self, closure: u32, place: u32) -> Option<(u16, u32)> {
        let mut handle = 0;
        for object in &self.before.store {
            match object {
                Object::Closure { code, .. } if handle == closure as usize => {
                    let code = self.program.as_ref()?.codes.get(*code as usize)?;
                    return code.opcodes.get(place as usize).copied();
                }
                _ => handle += object.cost(),
            }
        }
        None
    }

    /// The effect, if it takes so many arguments.
    fn fitting(&self, effect: Cell, given: usize) -> Option<Cell> {
        let constants = |code: u32| Some(&self.program.as_ref()?.codes.get(code as usize)?.constants);
        let fits = match effect.tag {
            tag::BUILTIN_EFFECT => given == 1,
            _ => match constants(effect.number)?.get(effect.payload as usize)? {
                Constant::UserEffect { params, variadic, .. } => {
                    given == usize::from(*params) || *variadic && given > usize::from(*params)
                }
                _ => false,
            },
        };
        fits.then_some(effect)
    }

    fn count(&mut self, deed: &Deed, now: &Snapshot) {
        if let Some(number) = deed.opcode {
            self.events.count(format!("opcode {}", opcode::name(number)));
        }
        if let Some(by) = deed.resumed {
            self.events.count(format!("resume by {by}"));
        }
        let new = &now.store[self.before.store.len()..];
        let captured = new.iter().find_map(|object| match object {
            Object::Continuation(frames) => Some(frames.len()),
            _ => None,
        });
        if let Some(frames) = captured {
            let frames = ["none", "1", "2", "3", "4 to 254", "255"][frames.min(4) + usize::from(frames > 254)];
            self.events.count(format!("capture of frames: {frames}"));
            let is_performed = deed.performed.is_some() && handled_effect(now) == deed.performed;
            let by = if is_lucia(now) { "a Lucia frame" } else { "a callback frame" };
            self.events.count(format!("{} handled by {by}", if is_performed { "perform" } else { "throw" }));
        }
        match &now.result {
            result if *result == self.before.result => {}
            Outcome::None => {}
            Outcome::Value(_) => self.events.count("result value"),
            Outcome::Effect { .. } => self.events.count("perform unhandled (result effect)"),
            Outcome::Error(fault) => self.events.count(format!("throw unhandled ({})", fault_name(fault))),
        }
    }
}

fn is_lucia(snapshot: &Snapshot) -> bool {
    snapshot.frames.last().is_some_and(|top| matches!(top.kind, FrameKind::Lucia { .. }))
}

/// The effect that the handling frame just got: last in a Lucia frame, first in a callback frame.
fn handled_effect(snapshot: &Snapshot) -> Option<Cell> {
    let top = snapshot.frames.last()?;
    if is_lucia(snapshot) { top.stack.last() } else { top.stack.first() }.copied()
}

fn fault_name(fault: &Fault) -> &'static str {
    match fault {
        Fault::CallArguments { .. } => "CallArguments",
        Fault::UnOperator { .. } => "UnOperator",
        Fault::BinOperator { .. } => "BinOperator",
        Fault::MetaUnOperator { .. } => "MetaUnOperator",
        Fault::MetaBinOperator { .. } => "MetaBinOperator",
        Fault::ZeroDivisor => "ZeroDivisor",
        Fault::LuciaError(_) => "LuciaError",
        Fault::LuciaPanic(_) => "LuciaPanic",
    }
}
