//! A run: one opcode or effect callback at a time by the Rust, with document 01's ticks, pauses and refusals around it.
//! Whole slices are played again by the Rust's `step`, which so judges slices and charges.

use lucia::{
    Context,
    compiler::{index::CodeId, opcode::OpCode},
    executor::Executor,
    frame::Frame,
    fuel::Fuel,
    objects::{Callback, Function, Value},
    one::Ended,
};

use crate::{
    call::code,
    driver::{FUEL_PER_CALLBACK, FUEL_PER_STEP, Loaded, MAX_FRAMES, MAX_HANDLERS, Room, SLICE, one_step, refusal},
    image::{MAX_CAPTURES, MAX_LOCALS},
    same::{Same, outline},
    values::{frame_cost, frames_cost, handler_count, stack_of},
};

/// What a run has to do next.
enum Due {
    Nothing,
    Opcode,
    Effect,
    Host,
}

/// The slice under way in a run.
struct Slice {
    /// Live cells of the frames below the top, which no opcode changes without ending the slice.
    below: usize,
    /// What the slice began from, if it began in this run.
    begun: Option<(Executor, Context)>,
}

impl Loaded {
    /// Runs until done, out of fuel, waiting, paused or refused; gives the answer's number and the ticks taken.
    pub(crate) fn run(&mut self, room: Room, fuel: &mut Fuel, ticks: u32) -> (u32, u32) {
        let mut taken = 0;
        let mut slice = None;
        loop {
            let ended = match self.due() {
                Due::Nothing => return (code::DONE, taken),
                Due::Host => {
                    fuel.consume(FUEL_PER_CALLBACK);
                    self.wait = true;
                    return (code::HOST, taken);
                }
                Due::Opcode | Due::Effect if taken == ticks => return (code::PAUSED, taken),
                Due::Opcode => self.opcode(room, fuel, &mut slice),
                Due::Effect => self.effect_callback(room, fuel).map(|()| true),
            };
            match ended {
                Err(number) => return (number, taken),
                Ok(ended) => {
                    taken += 1;
                    if ended && !fuel.should_continue() {
                        return (code::OUT_OF_FUEL, taken);
                    }
                }
            }
        }
    }

    fn due(&self) -> Due {
        match self.executor.frames.last() {
            _ if self.executor.result.is_some() => Due::Nothing,
            None => Due::Nothing,
            Some(Frame::Lucia { .. }) => Due::Opcode,
            Some(Frame::Callback { callback: Callback::Effect(_), .. }) => Due::Effect,
            Some(Frame::Callback { callback: Callback::Host(_), .. }) => Due::Host,
        }
    }

    /// An effect called as a function, by the Rust's `step`.
    fn effect_callback(&mut self, room: Room, fuel: &mut Fuel) -> Result<(), u32> {
        let copy = self.executor.clone();
        let charge = one_step(&mut self.executor, &mut self.context);
        assert_eq!(charge, FUEL_PER_CALLBACK + FUEL_PER_STEP, "the Rust's charge for a callback");
        self.settle_frames(room).inspect_err(|_| self.executor = copy)?;
        fuel.consume(FUEL_PER_CALLBACK);
        fuel.consume(FUEL_PER_STEP);
        Ok(())
    }

    /// The next opcode; says whether it ended its slice.
    fn opcode(&mut self, room: Room, fuel: &mut Fuel, slice: &mut Option<Slice>) -> Result<bool, u32> {
        let (opcode, top) = self.next_opcode();
        if !has_values(opcode, stack_of(top).len()) {
            return Err(refusal::STACK);
        }
        let Slice { below, .. } = *slice.get_or_insert_with(|| self.begin_slice());
        let copy = self.may_be_refused(room, opcode, below).then(|| self.executor.clone());
        let ended = self.executor.one_opcode(&mut self.context);
        let settled = match ended {
            Ended::Called | Ended::Threw => self.settle_frames(room),
            Ended::Counted | Ended::Jumped => self.settle_top(room, opcode, below),
        };
        if let Err(number) = settled {
            self.executor = copy.expect("a copy is made wherever a limit is near");
            return Err(number);
        }
        let Some(charge) = self.count(ended) else {
            return Ok(false);
        };
        fuel.consume(charge);
        fuel.consume(FUEL_PER_STEP);
        self.left = SLICE;
        if let Some(Slice { begun: Some(begun), .. }) = slice.take() {
            self.compare(begun, charge + FUEL_PER_STEP);
        }
        Ok(true)
    }

    fn next_opcode(&self) -> (OpCode<CodeId>, &Frame) {
        match self.executor.frames.last() {
            Some(top @ Frame::Lucia { pc, closure, .. }) => (closure.code.code[*pc], top),
            other => unreachable!("{other:?} has no opcodes"),
        }
    }

    fn begin_slice(&self) -> Slice {
        let (_, below) = self.executor.frames.split_last().expect("a slice has a frame");
        let begun = (self.left == SLICE).then(|| (self.executor.clone(), self.context.clone()));
        Slice { below: frames_cost(below), begun }
    }

    /// `settle` after an opcode that changed the top frame only; what it made is the top value.
    fn settle_top(&mut self, room: Room, opcode: OpCode<CodeId>, below: usize) -> Result<(), u32> {
        let top = self.executor.frames.last().expect("the frame is still there");
        let made = match opcode {
            OpCode::LoadConst(_) | OpCode::BuildList(_) => stack_of(top).split_last().map(|(value, _)| value),
            _ => None,
        };
        let objects = made.map_or_else(Vec::new, |value| self.store.new_objects(std::slice::from_ref(value)));
        self.settle(room, below + frame_cost(top), objects)
    }

    /// What the opcode charges if it ends its slice; else the slice goes on with what is left.
    fn count(&mut self, ended: Ended) -> Option<i32> {
        match ended {
            Ended::Jumped => None,
            Ended::Counted if self.left > 0 => {
                self.left -= 1;
                None
            }
            Ended::Counted | Ended::Called => Some(self.left as i32),
            Ended::Threw => Some(0),
        }
    }

    /// Whether a limit is so near that the opcode might pass it.
    fn may_be_refused(&self, room: Room, opcode: OpCode<CodeId>, below: usize) -> bool {
        let frames = &self.executor.frames;
        let top = frames.last().expect("an opcode has a frame");
        let live = below + frame_cost(top);
        let (more_frames, more_live) = growth(opcode, stack_of(top));
        // At most a closure, or a continuation of live frames and a list of live values.
        let more_store = 2 + MAX_CAPTURES + 2 * live;
        frames.len() + more_frames > MAX_FRAMES
            || live + more_live > room.live
            || self.store.used() + more_store > room.store
            || matches!(opcode, OpCode::RegisterHandler(_)) && handler_count(top) >= MAX_HANDLERS
    }

    /// Plays the slice again by the Rust's `step`.
    fn compare(&self, (mut executor, mut context): (Executor, Context), charge: i32) {
        let rust_charge = one_step(&mut executor, &mut context);
        let same = Same::default().states((&executor, &context), (&self.executor, &self.context));
        assert!(
            same && rust_charge == charge,
            "a slice differs\nby step: charge {rust_charge}\n{}\nby opcodes: charge {charge}\n{}",
            outline(&executor),
            outline(&self.executor)
        );
    }
}

/// Refusal 12: whether the stack has what the opcode takes or reads.
fn has_values(opcode: OpCode<CodeId>, height: usize) -> bool {
    match opcode {
        OpCode::Copy(i) | OpCode::Swap(i) => (1..=height).contains(&i),
        OpCode::BuildList(i) => i <= height,
        OpCode::Call(i) | OpCode::ReturnCall(i) => i < height,
        OpCode::LoadLocal(_)
        | OpCode::LoadGlobal(_)
        | OpCode::LoadUpvalue(_)
        | OpCode::LoadConst(_)
        | OpCode::Jump(_)
        | OpCode::JumpBackEdge(_)
        | OpCode::Break(_)
        | OpCode::Continue(_)
        | OpCode::MarkAddStackSize(_) => true,
        OpCode::CheckEffect(_) => height >= 2,
        _ if opcode.is_arithmetic() || opcode.is_comparison() => height >= 2,
        _ => height >= 1,
    }
}

/// The most frames and live cells that an opcode can add.
fn growth(opcode: OpCode<CodeId>, stack: &[Value]) -> (usize, usize) {
    match opcode {
        OpCode::Call(i) | OpCode::ReturnCall(i) => match &stack[stack.len() - 1 - i] {
            Value::Function(Function::Continuation(continuation)) => {
                (continuation.frames.len(), frames_cost(&continuation.frames))
            }
            // A new frame's 6, its locals and a list; arguments only move.
            _ => (1, 6 + MAX_LOCALS + 1),
        },
        // A value, or a handler.
        _ => (0, 2),
    }
}
