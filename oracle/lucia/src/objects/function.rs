//! Carried over from the Rust's `function.rs`: `Function`, `ArgumentRange` and its conversions. Left out: iteration and texts.

use crate::objects::{RcCallback, RcClosure, RcContinuation};

/// Enum of lucia function (Closure / Callback).
#[derive(Debug, Clone, PartialEq, Eq, Hash)]
pub enum Function {
    Closure(RcClosure),
    Callback(RcCallback),
    Continuation(RcContinuation),
}

macro_rules! impl_from {
    ($($e:ident($t:ty)),* $(,)?) => {
        $(
            impl From<$t> for Function {
                fn from(value: $t) -> Function {
                    Function::$e(value)
                }
            }
        )*
    };
}
impl_from! {
    Closure(RcClosure),
    Callback(RcCallback),
    Continuation(RcContinuation),
}

/// The required number of arguments when calling a function.
#[derive(Debug, Clone, Copy, PartialEq, Eq, Hash)]
pub struct ArgumentRange {
    pub start: usize,
    pub end: Option<usize>,
}

impl From<usize> for ArgumentRange {
    fn from(value: usize) -> Self {
        ArgumentRange {
            start: value,
            end: Some(value),
        }
    }
}

impl From<(usize, Option<usize>)> for ArgumentRange {
    fn from(value: (usize, Option<usize>)) -> Self {
        ArgumentRange {
            start: value.0,
            end: value.1,
        }
    }
}
