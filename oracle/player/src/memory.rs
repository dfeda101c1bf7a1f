//! Memory by docs/LAYOUT.md: the cells that a snapshot is written as. `memory/read.rs` has the way back.

mod read;

use crate::{
    cell::{Cell, bytes_of, tag},
    snapshot::{Fault, Frame, FrameKind, Handler, Object, Outcome, Snapshot},
};
pub use read::read;

/// Tags of cells that are no values.
mod mark {
    pub const LOADED: u32 = 1;
    pub const LUCIA: u32 = 64;
    pub const HOST: u32 = 65;
    pub const EFFECT: u32 = 66;
    pub const TARGET: u32 = 67;
    pub const PLACE: u32 = 68;
    pub const CLOSURE: u32 = 128;
    pub const LIST: u32 = 129;
    pub const CONTINUATION: u32 = 130;
}

/// The cells of a state block, and the used ones of a live stack and a store.
#[derive(Clone, PartialEq, Eq, Debug)]
pub struct Written {
    pub state: Vec<Cell>,
    pub live: Vec<Cell>,
    pub store: Vec<Cell>,
}

impl Written {
    /// State block, live stack and store as bytes.
    pub fn bytes(&self) -> [Vec<u8>; 3] {
        [&self.state, &self.live, &self.store].map(|cells| bytes_of(cells))
    }
}

pub fn write(snapshot: &Snapshot) -> Written {
    let Shown { kind, value, second, args } = shown(&snapshot.result);
    let loaded = if snapshot.loaded { mark::LOADED } else { 0 };
    let mut state = vec![
        Cell::new(loaded, snapshot.frames.len() as u32, snapshot.stored() as u64),
        Cell::new(snapshot.left, snapshot.wait.into(), kind),
        value,
        Cell::new(second, 0, args.len() as u64),
    ];
    state.extend(snapshot.globals.iter().chain(&snapshot.builtins));
    let mut live = Vec::new();
    snapshot.frames.iter().for_each(|frame| write_frame(frame, &mut live));
    live.extend(args);
    let mut store = Vec::new();
    snapshot.store.iter().for_each(|object| write_object(object, &mut store));
    Written { state, live, store }
}

/// A result: its kind, its cell, the second type of an error, and an effect's arguments.
struct Shown<'a> {
    kind: u64,
    value: Cell,
    second: u32,
    args: &'a [Cell],
}

fn shown(result: &Outcome) -> Shown<'_> {
    let typed = |kind, value, second| Shown { kind, value, second, args: &[] };
    let plain = |kind, value| typed(kind, value, 0);
    match *result {
        Outcome::None => plain(0, Cell::NULL),
        Outcome::Value(value) => plain(1, value),
        Outcome::Effect { effect, ref args } => Shown { kind: 2, value: effect, second: 0, args },
        Outcome::Error(ref fault) => match *fault {
            Fault::CallArguments { start, end, given } => {
                plain(3, Cell::new(start as u32, end.is_none().into(), given))
            }
            Fault::UnOperator { opcode, operand, of } => plain(4, Cell::new(opcode, operand, of.into())),
            Fault::BinOperator { opcode, operand, of: [first, second] } => {
                typed(5, Cell::new(opcode, operand, first.into()), second)
            }
            Fault::MetaUnOperator { name, of } => plain(6, Cell::new(name, 0, of.into())),
            Fault::MetaBinOperator { name, of: [first, second] } => typed(7, Cell::new(name, 0, first.into()), second),
            Fault::ZeroDivisor => plain(8, Cell::NULL),
            Fault::LuciaError(value) => plain(9, value),
            Fault::LuciaPanic(value) => plain(10, value),
        },
    }
}

fn write_frame(frame: &Frame, cells: &mut Vec<Cell>) {
    let (kind, subject, place) = match frame.kind {
        FrameKind::Lucia { closure, place } => (mark::LUCIA, Cell::new(tag::CLOSURE, closure, 0), place),
        FrameKind::Host { number, word } => (mark::HOST, Cell::new(tag::CALLBACK, number, word), 0),
        FrameKind::Effect { effect } => (mark::EFFECT, effect, 0),
    };
    cells.push(Cell::new(kind, frame.locals.len() as u32, frame.handlers.len() as u64));
    cells.push(subject);
    cells.push(Cell::new(mark::PLACE, place, frame.stack.len() as u64));
    cells.extend([Cell::NULL; 3]);
    cells.extend(&frame.locals);
    for Handler { effect, target, stack_size } in &frame.handlers {
        cells.extend([*effect, Cell::new(mark::TARGET, *target, *stack_size)]);
    }
    cells.extend(&frame.stack);
}

fn write_object(object: &Object, cells: &mut Vec<Cell>) {
    let behind = object.cost() as u64 - 1;
    match object {
        Object::Closure { code, upvalues } => {
            cells.push(Cell::new(mark::CLOSURE, *code, behind));
            cells.extend(upvalues);
        }
        Object::List(items) => {
            cells.push(Cell::new(mark::LIST, 0, behind));
            cells.extend(items);
        }
        Object::Continuation(frames) => {
            cells.push(Cell::new(mark::CONTINUATION, frames.len() as u32, behind));
            frames.iter().for_each(|frame| write_frame(frame, cells));
        }
    }
}
