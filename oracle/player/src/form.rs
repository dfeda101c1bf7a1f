//! Memory that a load could lead to (refusal 7), as values; how bytes hold it is said in `memory.rs`.

use crate::{
    cell::{Cell, tag},
    image::{Code, Constant, MAX_PARAMS, META_NAMES, OPCODE_NAMES, Program, TYPE_NAMES},
    snapshot::{Fault, Frame, FrameKind, Handler, Object, Outcome, Snapshot},
};

const MOST_FRAMES: usize = 256;
const MOST_HANDLERS: usize = 16;
const MOST_ITEMS: usize = 4_096;
/// The most values of one call.
const MOST_VALUES: u64 = 4_096;
/// What a slice begins with.
pub const SLICE: u32 = 64;

/// What does not hold.
pub type Broken = Result<(), String>;

pub fn must(holds: bool, what: &str) -> Broken {
    if holds { Ok(()) } else { Err(what.into()) }
}

/// What memory holds, beside the program whose memory it is.
pub struct Form<'a> {
    program: &'a Program,
    snapshot: &'a Snapshot,
    handles: Vec<usize>,
}

impl<'a> Form<'a> {
    pub fn new(program: &'a Program, snapshot: &'a Snapshot) -> Form<'a> {
        Form { program, snapshot, handles: snapshot.handles().collect() }
    }

    /// Whether the cell is a value that a host may give.
    pub fn is_value(&self, cell: Cell) -> bool {
        self.check_cell(cell, self.snapshot.store.len()).is_ok()
    }

    /// Checks the state and the objects from the index `old` on.
    pub fn check(&self, old: usize) -> Broken {
        let Snapshot { frames, result, wait, left, store, globals, builtins, .. } = self.snapshot;
        // Frames ask closures for their codes, so the objects come first.
        (old..store.len()).try_for_each(|index| self.check_object(index))?;
        must(frames.len() <= MOST_FRAMES, "over 256 frames")?;
        self.check_frames(frames, store.len())?;
        let top = frames.last().map(|frame| frame.kind);
        let is_running = *result == Outcome::None;
        must(!wait || is_running && matches!(top, Some(FrameKind::Host { .. })), "a wait without a callback on top")?;
        let may_be_left = is_running && !wait && matches!(top, Some(FrameKind::Lucia { .. }));
        must(*left == SLICE || *left < SLICE && may_be_left, "an unfinished slice without its frame")?;
        must(globals.len() == 256 && builtins.len() == 256, "not 256 globals or builtins")?;
        self.check_cells(globals, store.len())?;
        self.check_cells(builtins, store.len())?;
        self.check_outcome(result)
    }

    fn check_outcome(&self, outcome: &Outcome) -> Broken {
        let all = self.snapshot.store.len();
        match outcome {
            Outcome::None => Ok(()),
            Outcome::Value(cell) => self.check_cell(*cell, all),
            Outcome::Error(fault) => self.check_fault(fault),
            Outcome::Effect { effect, args } => {
                must(is_effect(*effect), "the result's effect is none")?;
                self.check_cell(*effect, all)?;
                self.check_cells(args, all)
            }
        }
    }

    /// Numbers of an error name a type, an opcode or a metamethod, and counts are those of parameters and of values in a call.
    fn check_fault(&self, fault: &Fault) -> Broken {
        let is_type = |of: u32| (of as usize) < TYPE_NAMES.len();
        let is_opcode = |opcode: u32| (opcode as usize) < OPCODE_NAMES.len();
        let is_name = |name: u32| (name as usize) < META_NAMES.len();
        let holds = match *fault {
            Fault::CallArguments { start, end, given } => {
                start <= MAX_PARAMS as u64 && end.is_none_or(|end| end == start) && given <= MOST_VALUES
            }
            Fault::UnOperator { opcode, of, .. } => is_opcode(opcode) && is_type(of),
            Fault::BinOperator { opcode, of, .. } => is_opcode(opcode) && of.into_iter().all(is_type),
            Fault::MetaUnOperator { name, of } => is_name(name) && is_type(of),
            Fault::MetaBinOperator { name, of } => is_name(name) && of.into_iter().all(is_type),
            Fault::ZeroDivisor => true,
            Fault::LuciaError(value) | Fault::LuciaPanic(value) => self.is_value(value),
        };
        must(holds, "an error of numbers that none has")
    }

    /// An object names earlier ones only.
    fn check_object(&self, index: usize) -> Broken {
        match &self.snapshot.store[index] {
            Object::Closure { code, upvalues } => {
                let of = self.program.codes.get(*code as usize).ok_or("a closure of no code")?;
                must(upvalues.len() == of.captures.len(), "another number of upvalues")?;
                self.check_cells(upvalues, index)
            }
            Object::List(items) => {
                must(items.len() <= MOST_ITEMS, "over 4,096 items")?;
                self.check_cells(items, index)
            }
            Object::Continuation(frames) => {
                must((1..=MOST_FRAMES).contains(&frames.len()), "a continuation of no frames, or over 256")?;
                self.check_frames(frames, index)
            }
        }
    }

    fn check_frames(&self, frames: &[Frame], earlier: usize) -> Broken {
        frames.iter().try_for_each(|frame| self.check_frame(frame, earlier))
    }

    fn check_frame(&self, frame: &Frame, earlier: usize) -> Broken {
        must(frame.handlers.len() <= MOST_HANDLERS, "over 16 handlers")?;
        let (locals, targets) = match frame.kind {
            FrameKind::Lucia { closure, place } => {
                let code = self.code_of(closure, earlier)?;
                must((place as usize) < code.opcodes.len(), "a place outside its code")?;
                (code.locals.into(), code.opcodes.len() as u32)
            }
            FrameKind::Host { .. } => (0, 1),
            FrameKind::Effect { effect } => {
                must(is_effect(effect), "an effect frame of no effect")?;
                self.check_cell(effect, earlier)?;
                (0, 1)
            }
        };
        must(frame.locals.len() == locals, "another number of locals")?;
        let is_lucia = matches!(frame.kind, FrameKind::Lucia { .. });
        for Handler { effect, target, stack_size } in &frame.handlers {
            must(is_effect(*effect) && *target < targets, "a handler of no effect, or its target outside its code")?;
            must(is_lucia || *stack_size == 0, "a callback's handler with a stack size")?;
            self.check_cell(*effect, earlier)?;
        }
        self.check_cells(&frame.locals, earlier)?;
        self.check_cells(&frame.stack, earlier)
    }

    /// The code of the closure at a handle.
    fn code_of(&self, closure: u32, earlier: usize) -> Result<&Code, String> {
        match self.object(closure, earlier) {
            Some(Object::Closure { code, .. }) => Ok(&self.program.codes[*code as usize]),
            _ => Err("a frame of no earlier closure".into()),
        }
    }

    /// The object at a handle, if it is one of the first `earlier`.
    fn object(&self, handle: u32, earlier: usize) -> Option<&Object> {
        let index = self.handles[..earlier].binary_search(&(handle as usize)).ok()?;
        Some(&self.snapshot.store[index])
    }

    fn check_cells(&self, cells: &[Cell], earlier: usize) -> Broken {
        cells.iter().try_for_each(|cell| self.check_cell(*cell, earlier))
    }

    /// A cell is one value, and names something that is there.
    fn check_cell(&self, cell: Cell, earlier: usize) -> Broken {
        let Cell { tag, number, payload } = cell;
        let object = || self.object(number, earlier).filter(|_| payload == 0);
        let constant = || self.program.codes.get(number as usize)?.constants.get(usize::try_from(payload).ok()?);
        let holds = match tag {
            tag::NULL => number == 0 && payload == 0,
            tag::BOOL => number < 2 && payload == 0,
            tag::INT | tag::FLOAT => number == 0,
            tag::STR => matches!(constant(), Some(Constant::Str(_))),
            tag::BYTES => matches!(constant(), Some(Constant::Bytes(_))),
            tag::USER_EFFECT => matches!(constant(), Some(Constant::UserEffect { .. })),
            tag::BUILTIN_EFFECT => number < 3 && payload == 0,
            tag::MESSAGE => (1..=6).contains(&number) && payload == 0,
            tag::LIST => matches!(object(), Some(Object::List(_))),
            tag::CLOSURE => matches!(object(), Some(Object::Closure { .. })),
            tag::CONTINUATION => matches!(object(), Some(Object::Continuation(_))),
            tag::CALLBACK => true,
            _ => false,
        };
        must(holds, "a cell that is no value, or names nothing earlier")
    }
}

fn is_effect(cell: Cell) -> bool {
    cell.tag % 16 == tag::BUILTIN_EFFECT
}
