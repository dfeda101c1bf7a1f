//! Lists near the limits: callbacks that wait under many frames, answers with up to 17 handlers and wrong counts, loans of about what a call would leave.

use super::{
    List,
    coder::{ANY, Coder, RESUME},
    program::{HOST, Plan, user_effect},
};
use crate::{
    call::{Call, LIVE_CELLS, Loans, STATE_LENGTH, STORE_CELLS, kind},
    cell::{Cell, bytes_of, tag},
    image::Constant,
    opcode::*,
    random::Random,
    snapshot::{Frame, Object},
    tree::{CodeTree, ConstantTree},
};

/// Globals of the four functions: one that asks the host, one of two parameters, a variadic one, and one that calls itself and then asks.
const ASK: u16 = 0;
const DOWN: u16 = 3;

/// The outermost code registers handlers and calls a function that asks the host, some frames further up.
pub(super) fn program(random: &mut Random) -> CodeTree {
    let mut effects: Vec<ConstantTree> = (0..17).map(|name| user_effect(&format!("x{name}"), 0, false)).collect();
    effects.extend([1, 1, 2].map(ConstantTree::BuiltinEffect));
    let plan = Plan { effects, functions: vec![(0, false), (2, false), (1, true), (1, false)] };
    let bodies: [fn(&mut Coder<'_>); 4] = [asks, takes, takes, calls_itself];
    let mut codes = Vec::new();
    for (level, body) in bodies.iter().enumerate() {
        let mut function = Coder::new(random, &plan, level + 1, plan.functions[level]);
        body(&mut function);
        codes.push(function.tree);
    }
    let mut main = Coder::new(random, &plan, 0, (0, false));
    main.tree.const_codes = codes;
    for level in 0..4 {
        main.load(ConstantTree::Function(level));
        main.store_global(level);
    }
    registers(&mut main);
    main.tree
}

/// Registers some effects, calls, and has a part for all that they handle.
fn registers(main: &mut Coder<'_>) {
    let count = *main.random.pick(&[0, 1, 2, 3, 15, 16, 16]);
    let mut targets = Vec::new();
    let first = main.random.below(main.plan.effects.len());
    for number in 0..count {
        let effect = main.plan.effects[(first + number) % main.plan.effects.len()].clone();
        main.load(effect);
        targets.push(main.jump(REGISTER_HANDLER));
    }
    if main.random.chance(2, 3) {
        main.load(ConstantTree::BuiltinEffect(1));
        targets.push(main.jump(REGISTER_HANDLER));
    }
    match main.random.below(4) {
        0 => asks_host(main),
        1 => {
            main.load_global(ASK);
            main.op(CALL, 0);
        }
        _ => {
            // Near 256 frames only now and then, for the Rust copies them all for each slice.
            let is_deep = main.random.chance(1, 8);
            let times = if is_deep { 250 + main.random.below(5) as i64 } else { *main.random.pick(&[0, 1, 2, 5]) };
            main.load_global(DOWN);
            main.load(ConstantTree::Int(times));
            main.op(CALL, 1);
        }
    }
    main.op(RETURN, 0);
    targets.into_iter().for_each(|target| main.land(target));
    if main.random.chance(1, 2) {
        main.op(POP, 0);
        main.op(STORE_LOCAL, RESUME);
        main.use_continuation(2, None);
    }
    main.op(RETURN, 0);
}

/// Calls what the host gave, with some arguments.
fn asks_host(coder: &mut Coder<'_>) {
    let name = *coder.random.pick(&HOST);
    coder.load_global(name);
    let count = coder.random.below(4) as u32;
    (0..count).for_each(|number| coder.load(ConstantTree::Int(number.into())));
    coder.op(CALL, count);
}

fn asks(coder: &mut Coder<'_>) {
    if coder.random.chance(1, 3) {
        coder.load(ConstantTree::BuiltinEffect(1));
        coder.op(REGISTER_HANDLER, 0);
    }
    asks_host(coder);
    coder.op(RETURN, 0);
}

fn takes(coder: &mut Coder<'_>) {
    coder.op(STORE_LOCAL, ANY);
    coder.perform(0);
    coder.op(RETURN, 0);
}

fn calls_itself(coder: &mut Coder<'_>) {
    coder.op(COPY, 1);
    coder.load(ConstantTree::Int(0));
    coder.op(GT, 0);
    let bottom = coder.jump(POP_JUMP_IF_FALSE);
    coder.load_global(DOWN);
    coder.op(COPY, 2);
    coder.load(ConstantTree::Int(1));
    coder.op(SUB, 0);
    coder.op(CALL, 1);
    coder.op(RETURN, 0);
    coder.land(bottom);
    asks_host(coder);
    coder.op(RETURN, 0);
}

impl List {
    /// An answered call: of a wrong count, of a function that asks again, or a resume, with any number of handlers.
    pub(super) fn tight_answer(&mut self) -> Call {
        let (subject, given) = match self.random.below(8) {
            0..=2 => (self.closure_of(|params| params == 2), *self.random.pick(&[0, 1, 3])),
            3 => (self.closure_of(|params| params == 0), 1 + self.random.below(2)),
            4 => (self.continuation(), *self.random.pick(&[0, 2])),
            5 => (self.continuation(), 1),
            _ => (self.snapshot.globals[usize::from(ASK)], 0),
        };
        let args: Vec<Cell> = (0..given).map(|_| self.value()).collect();
        let handlers = self.many_handlers();
        Call::Answer {
            kind: kind::CALL,
            word: self.random.next_u64(),
            subject,
            args: bytes_of(&args),
            handlers: bytes_of(&handlers),
        }
    }

    fn closure_of(&mut self, wanted: fn(u16) -> bool) -> Cell {
        let Self { snapshot, program, random, .. } = self;
        let fits = |object: &Object| match object {
            Object::Closure { code, .. } => wanted(program.codes[*code as usize].params),
            _ => false,
        };
        let closures = snapshot.handles().zip(&snapshot.store).filter(|(_, object)| fits(object));
        let found: Vec<Cell> = closures.map(|(handle, _)| Cell::new(tag::CLOSURE, handle as u32, 0)).collect();
        if found.is_empty() { Cell::new(tag::CLOSURE, 0, 0) } else { *random.pick(&found) }
    }

    fn continuation(&mut self) -> Cell {
        self.object_of(|object| matches!(object, Object::Continuation(_)))
    }

    /// Up to 17 different effects, often with Error among them, sometimes with repeats.
    fn many_handlers(&mut self) -> Vec<Cell> {
        let known = self.constants(|constant| matches!(constant, Constant::UserEffect { .. }));
        let count = if self.random.chance(1, 3) { self.random.below(18) } else { *self.random.pick(&[0, 1, 15, 16]) };
        let first = self.random.below(known.len().max(1));
        let mut cells: Vec<Cell> = known.iter().cycle().skip(first).take(count).copied().collect();
        if self.random.chance(2, 3) {
            let at = self.random.below(cells.len() + 1);
            cells.insert(at, Cell::new(tag::BUILTIN_EFFECT, 1, 0));
            cells.truncate(count.max(1));
        }
        if self.random.chance(1, 4) && !cells.is_empty() {
            let again = *self.random.pick(&cells);
            cells.push(again);
        }
        cells
    }

    /// About what the call would leave, or would have in between; else all.
    pub(super) fn tight_loans(&mut self, call: &Call) -> Loans {
        let frames = &self.snapshot.frames;
        let used = self.snapshot.live();
        let old = frames.last().map_or(0, |top| 2 * top.handlers.len());
        let (new, args) = match call {
            Call::Answer { args, handlers, .. } => (handlers.len() / 8, args.len() / 16),
            Call::Start { args, .. } => (0, args.len() / 16),
            _ => (old, 0),
        };
        let with_handlers = (used + new).saturating_sub(old);
        let callee = 9 + args;
        let is_answer = matches!(call, Call::Answer { .. });
        let live = match self.random.below(16) {
            0..=7 if is_answer => with_handlers,
            8..=10 if is_answer => with_handlers + callee,
            0 => callee,
            1..=3 => used + self.random.below(12),
            _ => LIVE_CELLS,
        };
        let above = self.random.below(frames.len().min(4) + 1);
        let captured: usize = frames.iter().rev().take(above).map(Frame::cost).sum();
        let stored = self.snapshot.stored().max(1);
        let store = match self.random.below(12) {
            0 => stored,
            1..=3 => (stored + 1 + captured + new).saturating_sub(old),
            _ => STORE_CELLS,
        };
        let mut near = |cells: usize, least: usize| {
            let around = (cells + self.random.below(5)).saturating_sub(2);
            if self.random.chance(31, 32) { around.max(least) } else { around }
        };
        let (live, store) = (near(live.min(LIVE_CELLS), used), near(store.min(STORE_CELLS), stored));
        let odd = if self.random.chance(1, 8) { 1 + self.random.below(15) } else { 0 };
        Loans { state: STATE_LENGTH, live: 16 * live + odd, store: 16 * store + odd }
    }
}
