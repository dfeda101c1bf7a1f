//! What a script ended with.

use std::fmt;

use crate::{Type, Value, Values, names};

/// What a script ended with.
#[derive(Clone, Copy, Debug)]
pub enum RunResult<'a> {
    /// It returned.
    Value(Value),
    /// It performed an effect that no frame handled.
    Effect {
        /// The effect.
        effect: Value,
        /// Its arguments.
        args: Values<'a>,
    },
    /// A call with a wrong count of arguments.
    CallArguments {
        /// How many are required.
        least: u32,
        /// Whether more than these are allowed.
        or_more: bool,
        /// How many were given.
        given: u64,
    },
    /// An operand of the wrong type.
    UnOperator {
        /// The opcode's number; [`names::opcode`] has its name.
        opcode: u32,
        /// The opcode's operand.
        operand: u32,
        /// The type.
        of: Type,
    },
    /// Two operands of which one has the wrong type.
    BinOperator {
        /// The opcode's number; [`names::opcode`] has its name.
        opcode: u32,
        /// The opcode's operand.
        operand: u32,
        /// The types.
        of: [Type; 2],
    },
    /// A type that lacks an operation.
    MetaUnOperator {
        /// The operation; [`names::metamethod`] has its name.
        name: u32,
        /// The type.
        of: Type,
    },
    /// Two types that lack an operation.
    MetaBinOperator {
        /// The operation; [`names::metamethod`] has its name.
        name: u32,
        /// The types.
        of: [Type; 2],
    },
    /// A division by 0.
    ZeroDivisor,
    /// An Error thrown by a host's answer, which nothing handled; its value.
    Error(Value),
    /// A Panic thrown by a host's answer, which nothing handled; its value.
    Panic(Value),
}

impl fmt::Display for RunResult<'_> {
    fn fmt(&self, f: &mut fmt::Formatter<'_>) -> fmt::Result {
        let opcode = |number| names::opcode(number).unwrap_or("unknown opcode");
        let metamethod = |number| names::metamethod(number).unwrap_or("unknown operation");
        match *self {
            RunResult::Value(value) => write!(f, "{value}"),
            RunResult::Effect { effect, args } => {
                write!(f, "{effect}, which no frame handles, with {} arguments", args.len())
            }
            RunResult::CallArguments { least, or_more, given } => {
                let more = if or_more { " or more" } else { "" };
                write!(f, "error: a call needs {least}{more} arguments and was given {given}")
            }
            RunResult::UnOperator { opcode: number, of, .. } => {
                write!(f, "error: {} can't take {of}", opcode(number))
            }
            RunResult::BinOperator { opcode: number, of: [first, second], .. } => {
                write!(f, "error: {} can't take {first} and {second}", opcode(number))
            }
            RunResult::MetaUnOperator { name, of } => write!(f, "error: {of} has no {}", metamethod(name)),
            RunResult::MetaBinOperator { name, of: [first, second] } => {
                write!(f, "error: {first} and {second} have no {}", metamethod(name))
            }
            RunResult::ZeroDivisor => f.write_str("error: a division by 0"),
            RunResult::Error(value) => write!(f, "Error thrown with {value}"),
            RunResult::Panic(value) => write!(f, "Panic thrown with {value}"),
        }
    }
}
