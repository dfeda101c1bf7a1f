//! What the executor needs of the compiler: opcodes (unchanged), codes, types and indices.

pub mod code;
pub mod index;
pub mod opcode;
pub mod value;
