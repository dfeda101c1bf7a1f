//! The values. Unchanged: closures and continuations. The others are carried over in part, with document 01's stand-ins.

mod callback;
mod closure;
mod continuation;
mod effect;
mod function;
mod str;
mod table;
mod value;

pub use self::{callback::*, closure::*, continuation::*, effect::*, function::*, str::*, table::*, value::*};
