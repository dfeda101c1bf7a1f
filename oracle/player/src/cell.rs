//! A cell of 16 bytes, one value each (docs/LAYOUT.md): tag and number of 32 bits, payload of 64, little-endian.

#[derive(Clone, Copy, PartialEq, Eq, Hash, Debug, Default)]
pub struct Cell {
    pub tag: u32,
    pub number: u32,
    pub payload: u64,
}

/// Tags of values: the type's number, plus 16 for each further form of one type.
pub mod tag {
    pub const NULL: u32 = 0;
    /// number 0 or 1
    pub const BOOL: u32 = 1;
    /// payload: two's complement
    pub const INT: u32 = 2;
    /// payload: the bits
    pub const FLOAT: u32 = 3;
    /// number: code, payload: constant
    pub const STR: u32 = 4;
    /// number: code, payload: constant
    pub const BYTES: u32 = 5;
    /// number: handle
    pub const LIST: u32 = 6;
    /// number: handle
    pub const CLOSURE: u32 = 7;
    /// number: 0 Yield, 1 Error, 2 Panic
    pub const BUILTIN_EFFECT: u32 = 8;
    /// number: 1 to 6
    pub const MESSAGE: u32 = 20;
    /// number: handle
    pub const CONTINUATION: u32 = 23;
    /// number: code, payload: constant
    pub const USER_EFFECT: u32 = 24;
    /// number: the callback's number, payload: its word
    pub const CALLBACK: u32 = 39;
}

impl Cell {
    pub const NULL: Cell = Cell { tag: tag::NULL, number: 0, payload: 0 };

    pub const fn new(tag: u32, number: u32, payload: u64) -> Cell {
        Cell { tag, number, payload }
    }

    pub const fn int(value: i64) -> Cell {
        Cell::new(tag::INT, 0, value as u64)
    }

    /// The first half as the C functions take it: tag + 2^32 · number.
    pub const fn low(self) -> u64 {
        self.tag as u64 | (self.number as u64) << 32
    }

    /// The second half: the payload.
    pub const fn high(self) -> u64 {
        self.payload
    }

    pub fn bytes(self) -> [u8; 16] {
        let mut bytes = [0; 16];
        bytes[..8].copy_from_slice(&self.low().to_le_bytes());
        bytes[8..].copy_from_slice(&self.high().to_le_bytes());
        bytes
    }

    pub fn from_bytes(bytes: &[u8]) -> Cell {
        let word = |at: usize| u32::from_le_bytes(bytes[at..at + 4].try_into().unwrap());
        Cell { tag: word(0), number: word(4), payload: u64::from_le_bytes(bytes[8..16].try_into().unwrap()) }
    }
}

/// A list of values as the C functions take it.
pub fn bytes_of(cells: &[Cell]) -> Vec<u8> {
    cells.iter().flat_map(|cell| cell.bytes()).collect()
}
