//! What a machine holds, in values of cells: the same for every implementation, so that two are compared by `==`.

use crate::cell::Cell;

#[derive(Clone, PartialEq, Eq, Debug)]
pub struct Snapshot {
    pub loaded: bool,
    /// Bottom first.
    pub frames: Vec<Frame>,
    pub result: Outcome,
    pub wait: bool,
    /// What is left of the unfinished slice; 64 if none is begun.
    pub left: u32,
    /// In the order in which they were made.
    pub store: Vec<Object>,
    /// 256 each.
    pub globals: Vec<Cell>,
    pub builtins: Vec<Cell>,
}

#[derive(Clone, PartialEq, Eq, Debug)]
pub struct Frame {
    pub kind: FrameKind,
    pub locals: Vec<Cell>,
    pub handlers: Vec<Handler>,
    /// Bottom first.
    pub stack: Vec<Cell>,
}

#[derive(Clone, Copy, PartialEq, Eq, Debug)]
pub enum FrameKind {
    /// The closure's handle, and the place of the next opcode.
    Lucia {
        closure: u32,
        place: u32,
    },
    Host {
        number: u32,
        word: u64,
    },
    /// An effect called as a function.
    Effect {
        effect: Cell,
    },
}

/// An effect with its target and stack size; both 0 in a callback frame.
#[derive(Clone, Copy, PartialEq, Eq, Debug)]
pub struct Handler {
    pub effect: Cell,
    pub target: u32,
    pub stack_size: u64,
}

#[derive(Clone, PartialEq, Eq, Debug)]
pub enum Outcome {
    None,
    Value(Cell),
    Error(Fault),
    Effect { effect: Cell, args: Vec<Cell> },
}

/// An error that became the result, with the Rust's fields. Types, opcodes and names of metamethods are numbers in the enum's order.
#[derive(Clone, PartialEq, Eq, Debug)]
pub enum Fault {
    CallArguments { start: u64, end: Option<u64>, given: u64 },
    UnOperator { opcode: u32, operand: u32, of: u32 },
    BinOperator { opcode: u32, operand: u32, of: [u32; 2] },
    MetaUnOperator { name: u32, of: u32 },
    MetaBinOperator { name: u32, of: [u32; 2] },
    ZeroDivisor,
    LuciaError(Cell),
    LuciaPanic(Cell),
}

#[derive(Clone, PartialEq, Eq, Debug)]
pub enum Object {
    Closure {
        code: u32,
        upvalues: Vec<Cell>,
    },
    List(Vec<Cell>),
    /// Bottom first.
    Continuation(Vec<Frame>),
}

impl Frame {
    /// Cells that the frame costs: 6, its locals, its stack values and 2 for each handler.
    pub fn cost(&self) -> usize {
        6 + self.locals.len() + self.stack.len() + 2 * self.handlers.len()
    }
}

impl Object {
    /// Cells that the object costs: 1 and its upvalues, its items, or the costs of its frames.
    pub fn cost(&self) -> usize {
        1 + match self {
            Object::Closure { upvalues, .. } => upvalues.len(),
            Object::List(items) => items.len(),
            Object::Continuation(frames) => frames.iter().map(Frame::cost).sum(),
        }
    }
}

impl Snapshot {
    /// Before a load, and whatever memory holds then.
    pub fn nothing_loaded() -> Snapshot {
        Snapshot {
            loaded: false,
            frames: Vec::new(),
            result: Outcome::None,
            wait: false,
            left: 64,
            store: Vec::new(),
            globals: vec![Cell::NULL; 256],
            builtins: vec![Cell::NULL; 256],
        }
    }

    /// After a load of an image whose outermost code has so many captures.
    pub fn just_loaded(captures: usize) -> Snapshot {
        let outermost = Object::Closure { code: 0, upvalues: vec![Cell::NULL; captures] };
        Snapshot { loaded: true, store: vec![outermost], ..Snapshot::nothing_loaded() }
    }

    /// Live cells used: the frames and an effect result's arguments.
    pub fn live(&self) -> usize {
        let args = match &self.result {
            Outcome::Effect { args, .. } => args.len(),
            _ => 0,
        };
        self.frames.iter().map(Frame::cost).sum::<usize>() + args
    }

    /// The handle of each object: the place of its first cell.
    pub fn handles(&self) -> impl Iterator<Item = usize> {
        self.store.iter().scan(0, |end, object| {
            let handle = *end;
            *end += object.cost();
            Some(handle)
        })
    }

    /// Store cells used.
    pub fn stored(&self) -> usize {
        self.store.iter().map(Object::cost).sum()
    }
}
