//! The executor of Lucia for Rust: loans, values and answers as types over `include/lucia.h`.
//!
//! A router lends an [`Image`] and the [`Memory`] of a job to a [`Machine`], loads, starts a Function and runs it for some ticks. Where the script asks the router itself, the run answers
//! [`Answer::Host`], and the router answers with a [`CallbackReturn`]. Results, frames and globals are read in memory by a [`View`]. A call that can't be carried out changes nothing
//! and gives a [`Refusal`]; none panics, whatever memory holds.
//!
//! ```
//! use lucia::{Answer, CallbackReturn, Fuel, Image, Machine, Memory, RunResult, Value};
//!
//! # fn main() -> Result<(), lucia::Refusal> {
//! // A script that asks builtin 1, a function of the host, what a via costs from layer 1 and from layer 3.
//! let image = Image::new(include_bytes!("../samples/callback.image"));
//! let mut machine = Machine::new(image, Memory::new(256, 1_024));
//! let outermost = machine.load()?;
//! machine.set_builtin(1, Value::Callback { number: 1, word: 0 })?;
//! machine.start(outermost, &[])?;
//! let mut fuel = Fuel::new(10_000);
//! while machine.run(&mut fuel, 1_000).answer? == Answer::Host {
//!     let Some(asked) = machine.view().waiting()? else { break };
//!     let (layer, word) = (asked.args.get(0), asked.word);
//!     let answer = match layer {
//!         Some(Value::Int(layer)) => CallbackReturn::ReturnValue(Value::Int(10 * layer)),
//!         _ => CallbackReturn::Error(Value::Null),
//!     };
//!     machine.answer(&mut fuel, word, answer)?;
//! }
//! assert!(matches!(machine.view().result()?, Some(RunResult::Value(Value::Int(40)))));
//! # Ok(())
//! # }
//! ```

mod answer;
mod fuel;
mod machine;
mod memory;
pub mod names;
pub mod raw;
mod result;
mod value;
mod view;

pub use answer::{Answer, Outcome, Refusal};
pub use fuel::Fuel;
pub use machine::{CallbackReturn, Image, Machine, Text};
pub use memory::{LIVE_CELLS, Memory, STATE_BYTES, STORE_CELLS};
pub use result::RunResult;
pub use value::{BuiltinEffect, Cell, Constant, Handle, Message, NoValue, Type, Value, list};
pub use view::{Callee, Frame, Handler, Handlers, Object, Values, View, Waiting};
