//! What memory holds, read by docs/LAYOUT.md: no call is needed for it.
//!
//! A view reads what the layout says and no more. On memory that was changed by hand it may find nothing to read, and says what a call would: 10 or 7.

use crate::{Cell, Handle, Refusal, Type, Value, result::RunResult};

/// Tags of cells that are no values.
mod tag {
    pub const LUCIA: u32 = 64;
    pub const CALLBACK: u32 = 65;
    pub const EFFECT: u32 = 66;
    pub const HANDLER: u32 = 67;
    pub const PLACE: u32 = 68;
    pub const CLOSURE: u32 = 128;
    pub const LIST: u32 = 129;
    pub const CONTINUATION: u32 = 130;
}

/// Cells of a frame before its locals.
const FRAME_HEAD: usize = 6;
/// First cells of globals and builtins in the state block.
const GLOBALS: usize = 4;
const BUILTINS: usize = 260;
const NAMES: usize = 256;

type Read<T> = Result<T, Refusal>;

/// What memory holds.
#[derive(Clone, Copy, Debug)]
pub struct View<'a> {
    state: Cells<'a>,
    live: Cells<'a>,
    store: Cells<'a>,
}

/// Whole cells of a loan.
#[derive(Clone, Copy, Debug)]
struct Cells<'a>(&'a [[u8; Cell::BYTES]]);

impl<'a> Cells<'a> {
    fn of(bytes: &'a [u8]) -> Cells<'a> {
        Cells(bytes.as_chunks().0)
    }

    fn at(self, index: usize) -> Read<Cell> {
        self.0.get(index).map(|&bytes| Cell::of_bytes(bytes)).ok_or(Refusal::NotInForm)
    }

    /// Takes so many cells off the front.
    fn take(&mut self, count: u64) -> Read<Cells<'a>> {
        let count = usize::try_from(count).map_err(|_| Refusal::NotInForm)?;
        let (front, rest) = self.0.split_at_checked(count).ok_or(Refusal::NotInForm)?;
        self.0 = rest;
        Ok(Cells(front))
    }

    /// Takes so many values off the front.
    fn values(&mut self, count: u64) -> Read<Values<'a>> {
        let cells = self.take(count)?;
        cells.iter().try_for_each(|cell| value(cell).map(drop))?;
        Ok(Values(cells))
    }

    fn iter(self) -> impl DoubleEndedIterator<Item = Cell> + ExactSizeIterator + 'a {
        self.0.iter().map(|&bytes| Cell::of_bytes(bytes))
    }
}

fn value(cell: Cell) -> Read<Value> {
    Value::try_from(cell).map_err(|_| Refusal::NotInForm)
}

/// A list of values in memory.
#[derive(Clone, Copy, Debug)]
pub struct Values<'a>(Cells<'a>);

impl<'a> Values<'a> {
    /// How many.
    pub fn len(&self) -> usize {
        self.0.0.len()
    }

    /// Whether there are none.
    pub fn is_empty(&self) -> bool {
        self.0.0.is_empty()
    }

    /// The value of this index.
    pub fn get(&self, index: usize) -> Option<Value> {
        value(self.0.at(index).ok()?).ok()
    }

    /// All of them, the first first.
    pub fn iter(&self) -> impl DoubleEndedIterator<Item = Value> + 'a {
        self.0.iter().filter_map(|cell| value(cell).ok())
    }

    /// A copy.
    pub fn to_vec(&self) -> Vec<Value> {
        self.iter().collect()
    }
}

/// A frame.
#[derive(Clone, Copy, Debug)]
pub struct Frame<'a> {
    /// What it runs.
    pub callee: Callee,
    /// The next opcode; 0 in a callback's frame.
    pub place: u32,
    /// Local 0 first; a callback's frame has none.
    pub locals: Values<'a>,
    /// Its handlers.
    pub handlers: Handlers<'a>,
    /// The top last; in a callback's frame the arguments.
    pub stack: Values<'a>,
}

/// What a frame runs.
#[derive(Clone, Copy, PartialEq, Eq, Debug)]
pub enum Callee {
    /// A script's closure.
    Closure(Handle),
    /// A function of the host.
    Callback {
        /// Which one.
        number: u32,
        /// This frame's word.
        word: u64,
    },
    /// An effect called as a function.
    Effect(Value),
}

/// Handlers of a frame.
#[derive(Clone, Copy, Debug)]
pub struct Handlers<'a>(Cells<'a>);

/// A handler of a frame.
#[derive(Clone, Copy, PartialEq, Eq, Debug)]
pub struct Handler {
    /// What it handles.
    pub effect: Value,
    /// The opcode at which the frame goes on; 0 in a callback's frame.
    pub target: u32,
    /// The stack's size when it was registered, which no rule reads.
    pub stack_size: u64,
}

impl<'a> Handlers<'a> {
    fn of(cells: Cells<'a>) -> Read<Handlers<'a>> {
        cells.0.as_chunks().0.iter().try_for_each(|pair| handler(pair).map(drop))?;
        Ok(Handlers(cells))
    }

    /// How many.
    pub fn len(&self) -> usize {
        self.0.0.len() / 2
    }

    /// Whether there are none.
    pub fn is_empty(&self) -> bool {
        self.0.0.is_empty()
    }

    /// All of them, in the order in which they were registered.
    pub fn iter(&self) -> impl Iterator<Item = Handler> + 'a {
        self.0.0.as_chunks().0.iter().filter_map(|pair| handler(pair).ok())
    }
}

fn handler(&[effect, target]: &[[u8; Cell::BYTES]; 2]) -> Read<Handler> {
    let (effect, target) = (value(Cell::of_bytes(effect))?, Cell::of_bytes(target));
    if effect.kind() != Type::Effect || target.tag != tag::HANDLER {
        return Err(Refusal::NotInForm);
    }
    Ok(Handler { effect, target: target.number, stack_size: target.payload })
}

impl<'a> Frame<'a> {
    /// Takes a frame off the front.
    fn take(cells: &mut Cells<'a>) -> Read<Frame<'a>> {
        let head = cells.take(FRAME_HEAD as u64)?;
        let (kind, place) = (head.at(0)?, head.at(2)?);
        if place.tag != tag::PLACE {
            return Err(Refusal::NotInForm);
        }
        Ok(Frame {
            callee: Callee::of(kind.tag, value(head.at(1)?)?)?,
            place: place.number,
            locals: cells.values(kind.number.into())?,
            handlers: Handlers::of(cells.take(kind.payload.saturating_mul(2))?)?,
            stack: cells.values(place.payload)?,
        })
    }
}

impl Callee {
    fn of(kind: u32, callee: Value) -> Read<Callee> {
        match (kind, callee) {
            (tag::LUCIA, Value::Closure(handle)) => Ok(Callee::Closure(handle)),
            (tag::CALLBACK, Value::Callback { number, word }) => Ok(Callee::Callback { number, word }),
            (tag::EFFECT, effect) if effect.kind() == Type::Effect => Ok(Callee::Effect(effect)),
            _ => Err(Refusal::NotInForm),
        }
    }
}

/// An object of the store.
#[derive(Clone, Debug)]
pub enum Object<'a> {
    /// A closure.
    Closure {
        /// Its code.
        code: u32,
        /// What it captured.
        upvalues: Values<'a>,
    },
    /// A list.
    List(Values<'a>),
    /// The frames that a perform captured, the bottom frame first.
    Continuation(Vec<Frame<'a>>),
}

/// A host callback that waits for an answer.
#[derive(Clone, Copy, Debug)]
pub struct Waiting<'a> {
    /// Which function of the host.
    pub number: u32,
    /// The word of its frame, which the answer replaces.
    pub word: u64,
    /// What it was called with; called again, the value returned or resumed with, or an effect that it handles, its continuation and its arguments.
    pub args: Values<'a>,
}

impl<'a> View<'a> {
    pub(crate) fn new(state: &'a [u8], live: &'a [u8], store: &'a [u8]) -> View<'a> {
        View { state: Cells::of(state), live: Cells::of(live), store: Cells::of(store) }
    }

    /// A cell of the state block, if something is loaded.
    fn loaded(&self, index: usize) -> Read<Cell> {
        let head = self.state.at(0).map_err(|_| Refusal::BadLoan)?;
        if head.tag == 1 { self.state.at(index) } else { Err(Refusal::NotLoaded) }
    }

    /// Whether something is loaded.
    pub fn is_loaded(&self) -> bool {
        self.loaded(0).is_ok()
    }

    /// How many cells of the store are used.
    pub fn store_used(&self) -> Read<u64> {
        Ok(self.loaded(0)?.payload)
    }

    /// What is left of an unfinished slice; 64 if none is begun.
    pub fn slice_left(&self) -> Read<u32> {
        Ok(self.loaded(1)?.tag)
    }

    /// The frames, the bottom frame first.
    pub fn frames(&self) -> Read<Vec<Frame<'a>>> {
        Ok(self.frames_and_rest()?.0)
    }

    /// The frames, and the live stack behind them.
    fn frames_and_rest(&self) -> Read<(Vec<Frame<'a>>, Cells<'a>)> {
        let mut rest = self.live;
        let frames = take_frames(self.loaded(0)?.number, &mut rest)?;
        Ok((frames, rest))
    }

    /// The callback that waits for the host's answer, if one does.
    pub fn waiting(&self) -> Read<Option<Waiting<'a>>> {
        if self.loaded(1)?.number == 0 {
            return Ok(None);
        }
        match self.frames()?.last() {
            Some(&Frame { callee: Callee::Callback { number, word }, stack: args, .. }) => {
                Ok(Some(Waiting { number, word, args }))
            }
            _ => Err(Refusal::NotInForm),
        }
    }

    /// The result, if there is one.
    pub fn result(&self) -> Read<Option<RunResult<'a>>> {
        let (kind, cell, more) = (self.loaded(1)?.payload, self.loaded(2)?, self.loaded(3)?);
        let unary = || typed(cell.payload);
        let binary = || Ok([typed(cell.payload)?, typed(more.tag.into())?]);
        Ok(Some(match kind {
            0 => return Ok(None),
            1 => RunResult::Value(value(cell)?),
            2 => RunResult::Effect { effect: value(cell)?, args: self.frames_and_rest()?.1.values(more.payload)? },
            3 => RunResult::CallArguments { least: cell.tag, or_more: cell.number == 1, given: cell.payload },
            4 => RunResult::UnOperator { opcode: cell.tag, operand: cell.number, of: unary()? },
            5 => RunResult::BinOperator { opcode: cell.tag, operand: cell.number, of: binary()? },
            6 => RunResult::MetaUnOperator { name: cell.tag, of: unary()? },
            7 => RunResult::MetaBinOperator { name: cell.tag, of: binary()? },
            8 => RunResult::ZeroDivisor,
            9 => RunResult::Error(value(cell)?),
            10 => RunResult::Panic(value(cell)?),
            _ => return Err(Refusal::NotInForm),
        }))
    }

    /// The globals, by name number.
    pub fn globals(&self) -> Read<Values<'a>> {
        self.table(GLOBALS)
    }

    /// The builtins, by name number.
    pub fn builtins(&self) -> Read<Values<'a>> {
        self.table(BUILTINS)
    }

    fn table(&self, first: usize) -> Read<Values<'a>> {
        self.loaded(first)?;
        let mut cells = self.state;
        cells.take(first as u64)?;
        cells.values(NAMES as u64)
    }

    /// The object at a handle, as a list, closure or continuation has it.
    pub fn object(&self, Handle(handle): Handle) -> Read<Object<'a>> {
        let mut cells = self.store;
        let mut cells = cells.take(self.store_used()?)?;
        cells.take(handle.into())?;
        let head = cells.take(1)?.at(0)?;
        match head.tag {
            tag::CLOSURE => Ok(Object::Closure { code: head.number, upvalues: cells.values(head.payload)? }),
            tag::LIST => Ok(Object::List(cells.values(head.payload)?)),
            tag::CONTINUATION => Ok(Object::Continuation(take_frames(head.number, &mut cells.take(head.payload)?)?)),
            _ => Err(Refusal::NotInForm),
        }
    }
}

fn take_frames<'a>(count: u32, cells: &mut Cells<'a>) -> Read<Vec<Frame<'a>>> {
    (0..count).map(|_| Frame::take(cells)).collect()
}

fn typed(number: u64) -> Read<Type> {
    u32::try_from(number).ok().and_then(Type::of).ok_or(Refusal::NotInForm)
}
