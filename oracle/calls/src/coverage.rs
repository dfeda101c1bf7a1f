//! How often random lists reach what is easily missed.

use std::collections::BTreeMap;

use player::{
    call::{Call, LIVE_CELLS, STORE_CELLS, code, kind},
    cell::{Cell, tag},
    image::{self, Program},
    opcode,
    snapshot::{Frame, FrameKind, Object, Outcome, Snapshot},
    step::{After, Step},
};

const KINDS: [&str; 8] =
    ["call", "perform", "tail call", "tail perform", "return", "error", "panic", "answer of no kind"];

#[derive(Default)]
pub struct Coverage {
    /// By what occurred, and a number or name of it.
    counts: BTreeMap<(&'static str, String), u64>,
    program: Option<Program>,
    before: Option<Snapshot>,
    /// Pauses by what was left of the slice.
    left: BTreeMap<u32, u64>,
    pauses: BTreeMap<u16, u64>,
}

impl Coverage {
    /// A list begins.
    pub fn begin(&mut self) {
        (self.program, self.before) = (None, None);
    }

    pub fn see(&mut self, step: &Step, after: &After) {
        let number = after.answer.code;
        if step.call == Call::Load && number == code::ACCEPTED {
            self.program = image::parse(&step.image).ok();
        }
        self.see_limits(step, after);
        match &step.call {
            Call::Run { ticks } => self.see_run(*ticks, step, after),
            Call::Start { args, .. } => self.see_start(args, number),
            Call::Answer { kind, subject, args, handlers, .. } => {
                self.see_answer(*kind, args, handlers, number);
                if *kind == kind::CALL && args.len().is_multiple_of(16) {
                    self.see_wrong_count(*subject, args.len() / 16, step, after);
                }
            }
            _ => {}
        }
        self.before = Some(after.snapshot.clone());
    }

    fn count(&mut self, what: &'static str, which: impl Into<String>) {
        *self.counts.entry((what, which.into())).or_default() += 1;
    }

    fn see_limits(&mut self, step: &Step, after: &After) {
        let by = match &step.call {
            Call::Start { .. } => "start",
            Call::Run { .. } => "run",
            Call::Answer { kind, .. } => KINDS[(*kind as usize).min(7)],
            _ => return,
        };
        let held = &after.snapshot;
        if held.frames.len() >= 255 {
            self.count("frames after it", format!("{} by {by}", held.frames.len()));
        }
        if let Some(frame) = held.frames.iter().rev().take(2).find(|frame| frame.handlers.len() >= 15) {
            self.count("handlers of a frame", format!("{}, {}", frame.handlers.len(), kind_name(frame)));
        }
        if let Some(what) = refusal(after.answer.code) {
            let opcode = match &step.call {
                Call::Run { .. } => self
                    .opcode(held)
                    .map_or(" at an effect callback".into(), |number| format!(" at {}", opcode::name(number))),
                _ => String::new(),
            };
            self.count(what, format!("{by}{opcode}"));
        }
        if !(1..code::DONE).contains(&after.answer.code) && held.loaded {
            let free = [
                ("live cells left over", (step.loans.live / 16).min(LIVE_CELLS), held.live()),
                ("store cells left over", (step.loans.store / 16).min(STORE_CELLS), held.stored()),
            ];
            for (what, room, used) in free.into_iter().filter(|(_, room, used)| room - used < 2) {
                self.count(what, format!("{} after {by}", room - used));
            }
        }
    }

    fn see_run(&mut self, ticks: u32, step: &Step, after: &After) {
        let many = match ticks {
            0 => "0",
            1 => "1",
            2..=64 => "2 to 64",
            65..=999 => "65 to 999",
            _ => "1,000 and more",
        };
        self.count("runs of ticks", many);
        if after.answer.code == code::PAUSED {
            *self.left.entry(after.snapshot.left).or_default() += 1;
            if let Some(number) = self.opcode(&after.snapshot) {
                *self.pauses.entry(number).or_default() += 1;
            }
        }
        let Some(&[a, b, c, d, mark]) = step.fuel.first_chunk() else { return };
        let fuel = match i32::from_le_bytes([a, b, c, d]) {
            i32::MIN => "the least",
            n if n < i32::MIN + 100 => "near the least",
            ..=0 => "0 and less",
            1..=67 => "1 to 67",
            i32::MAX => "the greatest",
            _ => "more",
        };
        self.count("fuel of runs", format!("{fuel}{}", if mark == 0 { "" } else { ", mark set" }));
        if after.fuel.starts_with(&i32::MIN.to_le_bytes()) && !step.fuel.starts_with(&i32::MIN.to_le_bytes()) {
            self.count("fuel of runs", "saturated at the least");
        }
    }

    fn see_start(&mut self, args: &[u8], number: u32) {
        let state = match &self.before {
            Some(before) if before.wait => "in a wait",
            Some(before) if before.result != Outcome::None => "with a result",
            Some(before) if !before.frames.is_empty() => "with frames",
            _ => "in turn",
        };
        let list = list_name(args.len(), 0);
        self.count("start", format!("{state}, {list}: {}", answer_name(number)));
    }

    fn see_answer(&mut self, kind: u32, args: &[u8], handlers: &[u8], number: u32) {
        let surplus = match kind {
            kind::CALL => "",
            kind::PERFORM..=kind::TAIL_PERFORM if !handlers.is_empty() => ", surplus handlers",
            kind::RETURN_VALUE..=kind::PANIC if !handlers.is_empty() => ", surplus handlers",
            kind::RETURN_VALUE..=kind::PANIC if !args.is_empty() => ", surplus arguments",
            _ => "",
        };
        let list = list_name(args.len(), handlers.len());
        let name = KINDS[(kind as usize).min(7)];
        self.count("answer", format!("{name}, {list}{surplus}: {}", answer_name(number)));
    }

    /// An answered Call with a wrong count: who catches it, how many handlers it brings, and whether these would fit before the frames go.
    fn see_wrong_count(&mut self, subject: Cell, given: usize, step: &Step, after: &After) {
        let (Some(before), Some(required)) = (&self.before, self.required(subject)) else { return };
        let (params, variadic) = required;
        let is_wrong = given < params || given > params && !variadic;
        let number = after.answer.code;
        if !before.wait || !is_wrong || (1..=11).contains(&number) {
            return;
        }
        let (Some(old), held) = (before.frames.last(), &after.snapshot) else { return };
        let is_caught = held.store.len() > before.store.len();
        let answered = match held.store.last() {
            Some(Object::Continuation(frames)) if is_caught => frames.last(),
            _ => held.frames.last(),
        };
        let by = match held.frames.last() {
            _ if (1..code::DONE).contains(&number) => format!("refused {number}"),
            Some(frame) if is_caught => format!("caught by {}", kind_name(frame)),
            _ => "not caught".into(),
        };
        // A refused answer's own handlers are counted by their cells, repeats too.
        let listed = match &step.call {
            Call::Answer { handlers, .. } => handlers.len() / 16,
            _ => 0,
        };
        let new = match answered {
            Some(frame) if !by.starts_with("refused") => frame.handlers.len(),
            _ => listed,
        };
        let room = (step.loans.live / 16).min(LIVE_CELLS) as i64;
        let with_handlers = (before.live() + 2 * new) as i64 - 2 * old.handlers.len() as i64;
        let fits = match with_handlers - room {
            ..-1 => "fits",
            -1 => "one below the limit",
            0 => "at the limit",
            1 => "one above",
            2 => "two above",
            _ => "far above",
        };
        self.count("answered call with a wrong count", format!("{by}, with its handlers {fits}"));
        self.count("its handlers", format!("{by:<28} {new:>2}"));
    }

    /// Parameters of a closure or continuation.
    fn required(&self, subject: Cell) -> Option<(usize, bool)> {
        let (before, program) = (self.before.as_ref()?, self.program.as_ref()?);
        let object = before.handles().zip(&before.store).find(|(handle, _)| *handle == subject.number as usize)?.1;
        match (subject.tag, object) {
            (tag::CLOSURE, Object::Closure { code, .. }) => {
                let code = &program.codes[*code as usize];
                Some((code.params.into(), code.variadic))
            }
            (tag::CONTINUATION, Object::Continuation(_)) => Some((1, false)),
            _ => None,
        }
    }

    /// The next opcode of a Lucia frame on top.
    fn opcode(&self, held: &Snapshot) -> Option<u16> {
        let FrameKind::Lucia { closure, place } = held.frames.last()?.kind else { return None };
        let object = held.handles().zip(&held.store).find(|(handle, _)| *handle == closure as usize)?.1;
        let Object::Closure { code, .. } = object else { return None };
        let code = self.program.as_ref()?.codes.get(*code as usize)?;
        code.opcodes.get(place as usize).map(|&(number, _)| number)
    }

    pub fn tally(&self) -> String {
        let mut lines = Vec::new();
        let mut last = "";
        for ((what, which), count) in &self.counts {
            if *what != last {
                lines.push(format!("{what}:"));
                last = what;
            }
            lines.push(format!("{count:>10}  {which}"));
        }
        let least = (0..=64).map(|left| self.left.get(&left).copied().unwrap_or(0)).min().unwrap_or(0);
        lines.push(format!("pauses by what is left of a slice, 0 to 64: each at least {least} times"));
        let never: Vec<&str> = (0..52)
            .filter(|&number| image::operand_kind(number).is_some() && !self.pauses.contains_key(&number))
            .map(opcode::name)
            .collect();
        let fewest = self.pauses.values().min().unwrap_or(&0);
        lines.push(format!("pauses before each opcode: at least {fewest} times; before none of [{}]", never.join(" ")));
        lines.join("\n")
    }
}

fn refusal(number: u32) -> Option<&'static str> {
    Some(match number {
        11 => "refused 11, out of turn",
        12 => "refused 12, too few values",
        13 => "refused 13, a 257th frame",
        14 => "refused 14, live stack",
        15 => "refused 15, store",
        16 => "refused 16, a 17th handler",
        _ => return None,
    })
}

fn kind_name(frame: &Frame) -> &'static str {
    match frame.kind {
        FrameKind::Lucia { .. } => "a script's frame",
        FrameKind::Host { .. } => "a host callback",
        FrameKind::Effect { .. } => "an effect's frame",
    }
}

fn list_name(args: usize, handlers: usize) -> &'static str {
    match (args % 16, handlers % 16, (args + handlers) / 16) {
        (0, 0, 0) => "no values",
        (0, 0, 1..=4_095) => "values",
        (0, 0, 4_096) => "4,096 values",
        (0, 0, _) => "over 4,096 values",
        (_, 0, _) => "arguments of odd length",
        _ => "handlers of odd length",
    }
}

fn answer_name(number: u32) -> String {
    if (1..code::DONE).contains(&number) { format!("refused {number}") } else { "accepted".into() }
}
