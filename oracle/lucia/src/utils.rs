//! Stand-in for the Rust's `utils`.

/// A float is its 64 bits, carried unread (document 01).
#[derive(Debug, Clone, Copy, PartialEq, Eq, Hash)]
pub struct Float(pub u64);
