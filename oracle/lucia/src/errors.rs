//! Stand-in for the Rust's `errors.rs`: the errors that the executor can meet, with the fields that it writes.

use std::fmt;

use crate::{
    compiler::{
        index::CodeId,
        opcode::OpCode,
        value::{MetaName, ValueType},
    },
    objects::{ArgumentRange, Value},
};

#[derive(Debug, Clone, PartialEq, Eq, Hash)]
pub enum Error {
    CallArguments {
        required: ArgumentRange,
        given: usize,
    },
    UnOperator {
        operator: OpCode<CodeId>,
        operand: ValueType,
    },
    BinOperator {
        operator: OpCode<CodeId>,
        operand: (ValueType, ValueType),
    },
    MetaUnOperator {
        operator: MetaName,
        operand: ValueType,
    },
    MetaBinOperator {
        operator: MetaName,
        operand: (ValueType, ValueType),
    },
    /// `Div` or `Rem` by the Int 0 (document 01).
    ZeroDivisor,
    LuciaError(Value),
    LuciaPanic(Value),
}

/// The number of the error's message (document 01); `From<String> for Value` makes the message Str of it.
impl fmt::Display for Error {
    fn fmt(&self, f: &mut fmt::Formatter<'_>) -> fmt::Result {
        let number = match self {
            Error::CallArguments { .. } => 1,
            Error::UnOperator { .. } => 2,
            Error::BinOperator { .. } => 3,
            Error::MetaUnOperator { .. } => 4,
            Error::MetaBinOperator { .. } => 5,
            Error::ZeroDivisor => 6,
            Error::LuciaError(_) | Error::LuciaPanic(_) => {
                unreachable!("the script's own error has a value and no message")
            }
        };
        write!(f, "{number}")
    }
}
