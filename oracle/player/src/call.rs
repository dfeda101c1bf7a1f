//! The eleven calls of the host, their answers, and the trait behind which every implementation stands.

use crate::{cell::Cell, snapshot::Snapshot};

/// The one length of the state block, in bytes (docs/LAYOUT.md).
pub const STATE_LENGTH: usize = 8_256;
/// The most cells of a live stack that are used.
pub const LIVE_CELLS: usize = 4_096;
/// The most cells of a store that are used.
pub const STORE_CELLS: usize = 65_536;

/// Lengths of the memory lent, in bytes.
#[derive(Clone, Copy, PartialEq, Eq, Debug)]
pub struct Loans {
    pub state: usize,
    pub live: usize,
    pub store: usize,
}

impl Default for Loans {
    fn default() -> Self {
        Loans { state: STATE_LENGTH, live: LIVE_CELLS * 16, store: STORE_CELLS * 16 }
    }
}

/// Numbers of the accepted answers; 0 is accepted, 1 to 22 are refusals.
pub mod code {
    pub const ACCEPTED: u32 = 0;
    pub const DONE: u32 = 100;
    pub const OUT_OF_FUEL: u32 = 101;
    pub const PAUSED: u32 = 102;
    pub const HOST: u32 = 103;
    pub const GO_ON: u32 = 104;
}

/// Kinds of a host's answer.
pub mod kind {
    pub const CALL: u32 = 0;
    pub const PERFORM: u32 = 1;
    pub const TAIL_CALL: u32 = 2;
    pub const TAIL_PERFORM: u32 = 3;
    pub const RETURN_VALUE: u32 = 4;
    pub const ERROR: u32 = 5;
    pub const PANIC: u32 = 6;
}

/// One call. Lists of values are bytes of cells, so that a malformed list can be given.
#[derive(Clone, PartialEq, Eq, Debug)]
pub enum Call {
    Load,
    Start { function: Cell, args: Vec<u8> },
    Run { ticks: u32 },
    Answer { kind: u32, word: u64, subject: Cell, args: Vec<u8>, handlers: Vec<u8> },
    Clear,
    Text { value: Cell },
    Bytes { value: Cell },
    SetGlobal { number: u32, value: Cell },
    GetGlobal { number: u32 },
    SetBuiltin { number: u32, value: Cell },
    GetBuiltin { number: u32 },
}

/// What a call is lent beside the machine's own memory. `fuel` is looked at by run and answer only, `page` by text only.
pub struct Lent<'a> {
    pub image: &'a [u8],
    pub loans: Loans,
    pub fuel: &'a mut [u8],
    pub page: &'a [u8],
}

/// What a call answers; what a call does not give is 0 (null).
#[derive(Clone, Copy, PartialEq, Eq, Debug, Default)]
pub struct Answer {
    /// 0 accepted, 1 to 22 a refusal, else one of `code`.
    pub code: u32,
    /// Ticks taken (run).
    pub ticks: u32,
    /// The value (load: the outermost closure; reading a global or builtin).
    pub value: Cell,
    /// The part (text, bytes): 0 image, 1 page; start and length there.
    pub from: u32,
    pub start: u64,
    pub len: u64,
}

impl Answer {
    pub fn of(code: u32) -> Answer {
        Answer { code, ..Answer::default() }
    }
}

/// An implementation of the eleven calls: the Rust with document 01's added rules, or the exported C functions.
pub trait Machine {
    fn call(&mut self, lent: Lent<'_>, call: &Call) -> Answer;

    /// What memory holds now.
    fn snapshot(&self) -> Snapshot;
}
