//! What both sides have in common.

/// Fuel that no script here uses up.
pub const FUEL: i32 = i32::MAX;
/// The host's callback, which is global 0, and what it returns.
pub const HOST_NUMBER: u32 = 7;
pub const ANSWER: i64 = 5;

/// What a run left, as far as the two sides are compared here.
#[derive(Clone, Copy, PartialEq, Eq, Debug)]
pub struct Left {
    /// The result if it is an Int; nothing for an effect that nothing handled.
    pub value: Option<i64>,
    pub fuel: i32,
}
