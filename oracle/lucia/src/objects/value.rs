//! Carried over from the Rust's `value.rs`: `Value` without UserData, `value_type`, `metatable`, `meta_error` and `MetaResult`.
//! Document 01's stand-ins: `Neg`, arithmetic, `Eq` and `Ne`, order comparisons, and what can be called.

use std::{fmt, rc::Rc};

use crate::{
    Context,
    compiler::value::{MetaMethod, MetaName},
    errors::Error,
    objects::{Callback, Function, RcBytes, RcEffect, RcStr, RcTable},
    utils::Float,
};

pub use crate::compiler::value::ValueType;

/// Enum of all lucia values.
#[derive(Debug, Clone, PartialEq, Eq, Hash, Default)]
pub enum Value {
    /// `null` - A null value.
    #[default]
    Null,
    /// `bool` - A `true` / `false` value.
    Bool(bool),
    /// `int` - A 64-bit integer.
    Int(i64),
    /// `float` - A 64-bit floating point number.
    Float(Float),
    /// `str` - A UTF-8 string.
    Str(RcStr),
    /// `bytes` - A byte array.
    Bytes(RcBytes),
    /// `table` - A table.
    Table(RcTable),
    /// `function` - A function.
    Function(Function),
    /// `effect` - An effect.
    Effect(RcEffect),
}

impl Value {
    pub fn metatable(self) -> Option<RcTable> {
        match self {
            Value::Table(t) => t.metatable(),
            _ => None,
        }
    }

    pub const fn is_null(&self) -> bool {
        matches!(self, Value::Null)
    }

    pub const fn value_type(&self) -> ValueType {
        match self {
            Value::Null => ValueType::Null,
            Value::Bool(_) => ValueType::Bool,
            Value::Int(_) => ValueType::Int,
            Value::Float(_) => ValueType::Float,
            Value::Str(_) => ValueType::Str,
            Value::Bytes(_) => ValueType::Bytes,
            Value::Table(_) => ValueType::Table,
            Value::Function(_) => ValueType::Function,
            Value::Effect(_) => ValueType::Effect,
        }
    }

    /// `Eq` of document 01; the derived equality also compares what a script cannot.
    fn script_eq(&self, other: &Value) -> bool {
        match (self, other) {
            (Value::Null, Value::Null)
            | (Value::Bool(_), Value::Bool(_))
            | (Value::Int(_), Value::Int(_))
            | (Value::Str(_), Value::Str(_))
            | (Value::Effect(_), Value::Effect(_)) => self == other,
            _ => false,
        }
    }
}

impl fmt::Display for Value {
    fn fmt(&self, f: &mut fmt::Formatter<'_>) -> fmt::Result {
        write!(f, "{self:?}")
    }
}

/// A binary operator on two Ints; any other pair is an error.
macro_rules! on_ints {
    ($($name:ident, $operator:ident, |$lhs:ident, $rhs:ident| $result:expr;)*) => {
        $(
            fn $name(self, ctx: &Context, other: Self::Value) -> Result<Self::Result2, Self::Error> {
                match (&self, &other) {
                    (&Value::Int($lhs), &Value::Int($rhs)) => $result,
                    _ => Err(self.meta_error(ctx, MetaName::$operator, vec![other])),
                }
            }
        )*
    };
}

impl MetaMethod<&Context> for Value {
    type Value = Value;
    type Error = Error;
    type ResultCall = Function;
    type ResultIter = Self::ResultCall;
    type Result1 = MetaResult<1>;
    type Result2 = MetaResult<2>;
    type Result3 = MetaResult<3>;

    fn meta_call(self, ctx: &Context) -> Result<Self::ResultCall, Self::Error> {
        match self {
            Value::Function(function) => Ok(function),
            Value::Effect(effect) => Ok(Rc::new(Callback::Effect(effect)).into()),
            _ => Err(self.meta_error(ctx, MetaName::Call, vec![])),
        }
    }

    fn meta_neg(self, ctx: &Context) -> Result<Self::Result1, Self::Error> {
        match self {
            Value::Int(value) => Ok(value.wrapping_neg().into()),
            _ => Err(self.meta_error(ctx, MetaName::Neg, vec![])),
        }
    }

    on_ints! {
        meta_add, Add, |lhs, rhs| Ok(lhs.wrapping_add(rhs).into());
        meta_sub, Sub, |lhs, rhs| Ok(lhs.wrapping_sub(rhs).into());
        meta_mul, Mul, |lhs, rhs| Ok(lhs.wrapping_mul(rhs).into());
        meta_div, Div, |lhs, rhs| match rhs {
            0 => Err(Error::ZeroDivisor),
            _ => Ok(lhs.wrapping_div(rhs).into()),
        };
        meta_rem, Rem, |lhs, rhs| match rhs {
            0 => Err(Error::ZeroDivisor),
            _ => Ok(lhs.wrapping_rem(rhs).into()),
        };
        meta_gt, Gt, |lhs, rhs| Ok((lhs > rhs).into());
        meta_ge, Ge, |lhs, rhs| Ok((lhs >= rhs).into());
        meta_lt, Lt, |lhs, rhs| Ok((lhs < rhs).into());
        meta_le, Le, |lhs, rhs| Ok((lhs <= rhs).into());
    }

    fn meta_eq(self, _ctx: &Context, other: Self::Value) -> Result<Self::Result2, Self::Error> {
        Ok(self.script_eq(&other).into())
    }

    fn meta_ne(self, _ctx: &Context, other: Self::Value) -> Result<Self::Result2, Self::Error> {
        Ok((!self.script_eq(&other)).into())
    }

    #[inline]
    fn meta_error(self, _ctx: &Context, operator: MetaName, args: Vec<Self::Value>) -> Self::Error {
        if args.is_empty() {
            Error::MetaUnOperator {
                operator,
                operand: self.value_type(),
            }
        } else {
            Error::MetaBinOperator {
                operator,
                operand: (self.value_type(), args[0].value_type()),
            }
        }
    }
}

#[derive(Debug, Clone)]
pub enum MetaResult<const N: usize> {
    TailCall {
        function: Function,
        args: [Value; N],
    },
    TailEffect {
        effect: RcEffect,
        args: Vec<Value>,
    },
    ReturnValue {
        value: Value,
    },
}

impl<T: Into<Value>, const N: usize> From<T> for MetaResult<N> {
    fn from(value: T) -> Self {
        MetaResult::ReturnValue {
            value: value.into(),
        }
    }
}

macro_rules! impl_from {
    ($($e:ident($t:ty)),* $(,)?) => {
        $(
            impl From<$t> for Value {
                fn from(value: $t) -> Value {
                    Value::$e(value)
                }
            }
        )*
    };
}
impl_from! {
    Bool(bool),
    Int(i64),
    Str(RcStr),
    Table(RcTable),
    Function(Function),
    Effect(RcEffect),
}

impl From<usize> for Value {
    fn from(value: usize) -> Self {
        Value::Int(value as i64)
    }
}

impl<T: Into<Value>> From<Option<T>> for Value {
    fn from(value: Option<T>) -> Self {
        match value {
            Some(t) => t.into(),
            None => Value::Null,
        }
    }
}
