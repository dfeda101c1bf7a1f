//! Fuel.

/// Fuel: a number that runs and answers charge, and a mark by which the host stops them after one step.
///
/// ```
/// use lucia::Fuel;
///
/// let mut fuel = Fuel::new(10_000);
/// assert_eq!(fuel.number(), 10_000);
/// fuel.set_mark(true);
/// assert!(fuel.mark());
/// ```
#[derive(Clone, Copy, PartialEq, Eq, Debug)]
pub struct Fuel {
    bytes: [u8; Fuel::BYTES],
}

impl Fuel {
    /// The one length of a fuel loan.
    pub const BYTES: usize = 5;

    /// So much fuel, and no mark.
    pub fn new(number: i32) -> Fuel {
        let [a, b, c, d] = number.to_le_bytes();
        Fuel { bytes: [a, b, c, d, 0] }
    }

    /// What is left; below 0 where a charge was greater than what was left.
    pub fn number(&self) -> i32 {
        let [a, b, c, d, _] = self.bytes;
        i32::from_le_bytes([a, b, c, d])
    }

    /// Gives it another number and leaves the mark.
    pub fn set_number(&mut self, number: i32) {
        self.bytes[..4].copy_from_slice(&number.to_le_bytes());
    }

    /// Whether the mark is set: a run then takes one slice or callback and answers "out of fuel".
    pub fn mark(&self) -> bool {
        self.bytes[4] != 0
    }

    /// Sets the mark, or takes it away. No call does.
    pub fn set_mark(&mut self, mark: bool) {
        self.bytes[4] = mark.into();
    }

    /// The loan.
    pub(crate) fn bytes_mut(&mut self) -> &mut [u8] {
        &mut self.bytes
    }
}
