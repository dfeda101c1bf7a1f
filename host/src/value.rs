//! Values and the cells that hold them.

use std::fmt;

use crate::names::{BUILTIN_EFFECTS, MESSAGES, TYPES};

/// 16 bytes that hold one value, or a field of a frame or object (docs/LAYOUT.md).
#[derive(Clone, Copy, PartialEq, Eq, Hash, Debug, Default)]
pub struct Cell {
    /// What it is; the type of a value is its tag modulo 16.
    pub tag: u32,
    /// A 32-bit number.
    pub number: u32,
    /// A 64-bit number.
    pub payload: u64,
}

impl Cell {
    /// The bytes of a cell.
    pub const BYTES: usize = 16;

    /// The two halves as the calls take them: tag + 2^32 · number, and the payload.
    pub fn halves(self) -> (u64, u64) {
        (u64::from(self.tag) | u64::from(self.number) << 32, self.payload)
    }

    /// The cell of two halves.
    pub fn of_halves(low: u64, high: u64) -> Cell {
        Cell { tag: low as u32, number: (low >> 32) as u32, payload: high }
    }

    /// As bytes, little-endian.
    pub fn to_bytes(self) -> [u8; Cell::BYTES] {
        let (low, high) = self.halves();
        let mut bytes = [0; Cell::BYTES];
        bytes[..8].copy_from_slice(&low.to_le_bytes());
        bytes[8..].copy_from_slice(&high.to_le_bytes());
        bytes
    }

    /// The cell of these bytes.
    pub fn of_bytes(bytes: [u8; Cell::BYTES]) -> Cell {
        let number = u128::from_le_bytes(bytes);
        Cell::of_halves(number as u64, (number >> 64) as u64)
    }
}

/// A value of a script or of the host.
///
/// ```
/// use lucia::{Cell, Value};
///
/// let cell = Cell::from(Value::Int(-1));
/// assert_eq!(cell, Cell { tag: 2, number: 0, payload: u64::MAX });
/// assert_eq!(Value::try_from(cell), Ok(Value::Int(-1)));
/// ```
#[derive(Clone, Copy, PartialEq, Eq, Hash, Debug)]
pub enum Value {
    /// Nothing; what a global has that was never set.
    Null,
    /// A truth value.
    Bool(bool),
    /// A whole number of 64 bits.
    Int(i64),
    /// The bits of a Float, which the executor carries unread; see [`Value::float`].
    Float(u64),
    /// A Str constant of the image; `Machine::text` has its text.
    Str(Constant),
    /// An error that is not the script's own, as a Str: its text is a line of the host's page.
    Message(Message),
    /// A Bytes constant of the image; `Machine::bytes` has its bytes.
    Bytes(Constant),
    /// A list in the store.
    List(Handle),
    /// A closure in the store.
    Closure(Handle),
    /// A continuation in the store: frames that a perform captured.
    Continuation(Handle),
    /// A function of the host.
    Callback {
        /// Which one; the host's own numbering.
        number: u32,
        /// What the host wants to have back; each frame of the callback has a copy.
        word: u64,
    },
    /// `Yield`, `Error` or `Panic`.
    BuiltinEffect(BuiltinEffect),
    /// An effect of the image.
    Effect(Constant),
}

/// A constant of the image.
#[derive(Clone, Copy, PartialEq, Eq, Hash, Debug)]
pub struct Constant {
    /// Codes are numbered from 0 in the order in which they begin in the image.
    pub code: u32,
    /// Its index in that code.
    pub index: u32,
}

/// An object of the store, by the place of its first cell.
#[derive(Clone, Copy, PartialEq, Eq, PartialOrd, Ord, Hash, Debug)]
pub struct Handle(pub u32);

macro_rules! numbered {
    ($(#[$doc:meta])* $name:ident from $first:literal named by $names:ident { $($(#[$case_doc:meta])* $case:ident,)* }) => {
        $(#[$doc])*
        #[derive(Clone, Copy, PartialEq, Eq, Hash, Debug)]
        pub enum $name {
            $($(#[$case_doc])* $case,)*
        }

        impl $name {
            const ALL: &[$name] = &[$($name::$case,)*];

            /// Its number in a cell.
            pub fn number(self) -> u32 {
                self as u32 + $first
            }

            /// The one of this number.
            pub fn of(number: u32) -> Option<$name> {
                Self::ALL.get(number.checked_sub($first)? as usize).copied()
            }

            /// Its name.
            pub fn name(self) -> &'static str {
                $names[self as usize]
            }
        }

        impl fmt::Display for $name {
            fn fmt(&self, f: &mut fmt::Formatter<'_>) -> fmt::Result {
                f.write_str(self.name())
            }
        }
    };
}

numbered! {
    /// Errors that are not the script's own, as a handler sees them.
    Message from 1 named by MESSAGES {
        /// A wrong count of arguments.
        CallArguments,
        /// An operand of the wrong type.
        UnOperator,
        /// Two operands of which one has the wrong type.
        BinOperator,
        /// A type that lacks an operation.
        MetaUnOperator,
        /// Two types that lack an operation.
        MetaBinOperator,
        /// A division by 0.
        ZeroDivisor,
    }
}

numbered! {
    /// Effects that need no image.
    BuiltinEffect from 0 named by BUILTIN_EFFECTS {
        /// The script's own to use.
        Yield,
        /// What a thrown error performs.
        Error,
        /// What a thrown panic performs.
        Panic,
    }
}

numbered! {
    /// Types of values.
    Type from 0 named by TYPES {
        /// Null.
        Null,
        /// Bool.
        Bool,
        /// Int.
        Int,
        /// Float.
        Float,
        /// Str, messages among them.
        Str,
        /// Bytes.
        Bytes,
        /// Table: lists.
        Table,
        /// Function: closures, continuations and callbacks.
        Function,
        /// Effect.
        Effect,
        /// No value has it, but a script may ask for it.
        UserData,
    }
}

/// Tags of values.
mod tag {
    pub const NULL: u32 = 0;
    pub const BOOL: u32 = 1;
    pub const INT: u32 = 2;
    pub const FLOAT: u32 = 3;
    pub const STR: u32 = 4;
    pub const BYTES: u32 = 5;
    pub const LIST: u32 = 6;
    pub const CLOSURE: u32 = 7;
    pub const BUILTIN_EFFECT: u32 = 8;
    pub const MESSAGE: u32 = 20;
    pub const CONTINUATION: u32 = 23;
    pub const EFFECT: u32 = 24;
    pub const CALLBACK: u32 = 39;
}

impl Value {
    /// A Float.
    pub fn float(number: f64) -> Value {
        Value::Float(number.to_bits())
    }

    /// Its type.
    pub fn kind(self) -> Type {
        match self {
            Value::Null => Type::Null,
            Value::Bool(_) => Type::Bool,
            Value::Int(_) => Type::Int,
            Value::Float(_) => Type::Float,
            Value::Str(_) | Value::Message(_) => Type::Str,
            Value::Bytes(_) => Type::Bytes,
            Value::List(_) => Type::Table,
            Value::Closure(_) | Value::Continuation(_) | Value::Callback { .. } => Type::Function,
            Value::BuiltinEffect(_) | Value::Effect(_) => Type::Effect,
        }
    }

    pub(crate) fn halves(self) -> (u64, u64) {
        Cell::from(self).halves()
    }
}

impl From<Value> for Cell {
    fn from(value: Value) -> Cell {
        let cell = |tag, number, payload| Cell { tag, number, payload };
        let constant = |tag, Constant { code, index }| cell(tag, code, index.into());
        match value {
            Value::Null => cell(tag::NULL, 0, 0),
            Value::Bool(truth) => cell(tag::BOOL, truth.into(), 0),
            Value::Int(number) => cell(tag::INT, 0, number as u64),
            Value::Float(bits) => cell(tag::FLOAT, 0, bits),
            Value::Str(at) => constant(tag::STR, at),
            Value::Message(message) => cell(tag::MESSAGE, message.number(), 0),
            Value::Bytes(at) => constant(tag::BYTES, at),
            Value::List(Handle(handle)) => cell(tag::LIST, handle, 0),
            Value::Closure(Handle(handle)) => cell(tag::CLOSURE, handle, 0),
            Value::Continuation(Handle(handle)) => cell(tag::CONTINUATION, handle, 0),
            Value::Callback { number, word } => cell(tag::CALLBACK, number, word),
            Value::BuiltinEffect(effect) => cell(tag::BUILTIN_EFFECT, effect.number(), 0),
            Value::Effect(at) => constant(tag::EFFECT, at),
        }
    }
}

/// A cell that holds no value.
#[derive(Clone, Copy, PartialEq, Eq, Debug)]
pub struct NoValue(pub Cell);

impl fmt::Display for NoValue {
    fn fmt(&self, f: &mut fmt::Formatter<'_>) -> fmt::Result {
        let Cell { tag, number, payload } = self.0;
        write!(f, "no value is written as tag {tag}, number {number}, payload {payload}")
    }
}

impl std::error::Error for NoValue {}

impl TryFrom<Cell> for Value {
    type Error = NoValue;

    /// The value that this cell is written for; whether what it names exists only a call can tell.
    fn try_from(cell: Cell) -> Result<Value, NoValue> {
        let Cell { tag, number, payload } = cell;
        let constant = u32::try_from(payload).map(|index| Constant { code: number, index });
        let value = match (tag, number, payload) {
            (tag::NULL, 0, 0) => Some(Value::Null),
            (tag::BOOL, 0 | 1, 0) => Some(Value::Bool(number == 1)),
            (tag::INT, 0, _) => Some(Value::Int(payload as i64)),
            (tag::FLOAT, 0, _) => Some(Value::Float(payload)),
            (tag::STR, ..) => constant.ok().map(Value::Str),
            (tag::MESSAGE, _, 0) => Message::of(number).map(Value::Message),
            (tag::BYTES, ..) => constant.ok().map(Value::Bytes),
            (tag::LIST, _, 0) => Some(Value::List(Handle(number))),
            (tag::CLOSURE, _, 0) => Some(Value::Closure(Handle(number))),
            (tag::CONTINUATION, _, 0) => Some(Value::Continuation(Handle(number))),
            (tag::CALLBACK, ..) => Some(Value::Callback { number, word: payload }),
            (tag::BUILTIN_EFFECT, _, 0) => BuiltinEffect::of(number).map(Value::BuiltinEffect),
            (tag::EFFECT, ..) => constant.ok().map(Value::Effect),
            _ => None,
        };
        value.ok_or(NoValue(cell))
    }
}

/// A list of values as the calls take it: cells one behind the other.
pub fn list(values: &[Value]) -> Vec<u8> {
    values.iter().flat_map(|&value| Cell::from(value).to_bytes()).collect()
}

impl From<bool> for Value {
    fn from(truth: bool) -> Value {
        Value::Bool(truth)
    }
}

impl From<i64> for Value {
    fn from(number: i64) -> Value {
        Value::Int(number)
    }
}

impl fmt::Display for Constant {
    fn fmt(&self, f: &mut fmt::Formatter<'_>) -> fmt::Result {
        write!(f, "code {}, constant {}", self.code, self.index)
    }
}

impl fmt::Display for Handle {
    fn fmt(&self, f: &mut fmt::Formatter<'_>) -> fmt::Result {
        write!(f, "@{}", self.0)
    }
}

impl fmt::Display for Value {
    fn fmt(&self, f: &mut fmt::Formatter<'_>) -> fmt::Result {
        match self {
            Value::Null => f.write_str("null"),
            Value::Bool(truth) => write!(f, "{truth}"),
            Value::Int(number) => write!(f, "{number}"),
            Value::Float(bits) => write!(f, "float {}", f64::from_bits(*bits)),
            Value::Str(at) => write!(f, "text ({at})"),
            Value::Message(message) => write!(f, "message {} ({message})", message.number()),
            Value::Bytes(at) => write!(f, "bytes ({at})"),
            Value::List(handle) => write!(f, "list {handle}"),
            Value::Closure(handle) => write!(f, "closure {handle}"),
            Value::Continuation(handle) => write!(f, "continuation {handle}"),
            Value::Callback { number, word } => write!(f, "callback {number}, word {word}"),
            Value::BuiltinEffect(effect) => write!(f, "effect {effect}"),
            Value::Effect(at) => write!(f, "effect ({at})"),
        }
    }
}

#[cfg(test)]
mod tests {
    use super::*;

    #[test]
    fn every_value_comes_back_from_its_cell_and_its_type_is_the_tag_modulo_16() {
        let at = Constant { code: 255, index: 1_023 };
        let values = [
            Value::Null,
            Value::Bool(true),
            Value::Int(i64::MIN),
            Value::float(-0.5),
            Value::Str(at),
            Value::Message(Message::ZeroDivisor),
            Value::Bytes(at),
            Value::List(Handle(3)),
            Value::Closure(Handle(0)),
            Value::Continuation(Handle(65_535)),
            Value::Callback { number: u32::MAX, word: u64::MAX },
            Value::BuiltinEffect(BuiltinEffect::Panic),
            Value::Effect(at),
        ];
        for value in values {
            let cell = Cell::from(value);
            assert_eq!(Value::try_from(cell), Ok(value));
            assert_eq!(Cell::of_bytes(cell.to_bytes()), cell);
            assert_eq!(value.kind().number(), cell.tag % 16);
        }
    }

    #[test]
    fn a_cell_with_a_bit_too_many_is_no_value() {
        let cell = |tag, number, payload| Value::try_from(Cell { tag, number, payload });
        for (tag, number, payload) in [
            (0, 1, 0),
            (0, 0, 1),
            (1, 2, 0),
            (1, 0, 1),
            (2, 1, 0),
            (8, 3, 0),
            (20, 0, 0),
            (20, 7, 0),
            (9, 0, 0),
            (64, 0, 0),
        ] {
            assert!(cell(tag, number, payload).is_err(), "{tag} {number} {payload}");
        }
        assert!(cell(4, 0, 1 << 32).is_err());
    }
}
