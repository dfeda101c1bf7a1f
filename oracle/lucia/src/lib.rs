//! The executor of Lucia (st1020/lucia-lang 5f8fdaec83): seven files unchanged (`sums.sha256`) over stand-ins for the rest.

pub mod compiler;
pub mod context;
pub mod errors;
pub mod executor;
pub mod frame;
pub mod fuel;
pub mod objects;
pub mod one;
pub mod utils;
#[expect(clippy::clone_on_copy, reason = "the Rust's Bytes constant is a vector")]
mod vm;

pub use context::Context;
