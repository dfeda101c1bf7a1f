//! Ours on one memory that is kept over a whole list of calls, beside what the oracle leaves.

use std::ops::Range;

use player::{
    call::{Call, LIVE_CELLS, Loans, STATE_LENGTH, STORE_CELLS, code},
    image::Program,
    memory::{read, write},
    plain::Memory,
    snapshot::Snapshot,
    step::{After, Step},
};

use crate::{fence, ours};

/// Bytes in front of a loan, and the fewest behind the longest one.
const AROUND: usize = 64;
/// Behind what was ever used so many bytes are looked at after each call, the others after the list.
const NEAR: usize = 2_048;
/// Every second call with a shorter store has its loans between fences.
const SMALL: usize = 100_000;

/// The memory of one loan: each call is lent its first bytes from `start` on, and what is around them must stay.
struct Arena {
    bytes: Vec<u8>,
    /// What `bytes` must be.
    right: Vec<u8>,
    /// What both are before a list.
    pattern: Vec<u8>,
    start: usize,
    /// No call of the list may have written from here on.
    high: usize,
}

impl Arena {
    fn new(longest: usize) -> Arena {
        let scatter = |at: usize| (at.wrapping_mul(0x9e37_79b9) >> 13) as u8;
        let pattern: Vec<u8> = (0..longest + 2 * AROUND).map(scatter).collect();
        Arena { bytes: pattern.clone(), right: pattern.clone(), pattern, start: 0, high: 0 }
    }

    /// Before a list: the pattern again, and another place of the first byte.
    fn renew(&mut self, start: usize) {
        let used = ..self.high;
        self.bytes[used].copy_from_slice(&self.pattern[used]);
        self.right[used].copy_from_slice(&self.pattern[used]);
        (self.start, self.high) = (start, start);
    }

    fn lent(&mut self, len: usize) -> &mut [u8] {
        &mut self.bytes[self.start..self.start + len]
    }

    /// From now on the loan must begin with this; up to `free` bytes of it may be anything.
    fn expect(&mut self, content: &[u8], free: usize) {
        let [used, end] = [content.len(), content.len().max(free)].map(|len| self.start + len);
        self.right[self.start..used].copy_from_slice(content);
        self.right[used..end].copy_from_slice(&self.bytes[used..end]);
        self.high = self.high.max(end);
    }

    /// The first byte that is not right, counted from the loan's first.
    fn differs(&self, range: Range<usize>) -> Result<(), String> {
        if self.bytes[range.clone()] == self.right[range.clone()] {
            return Ok(());
        }
        let at = range.clone().find(|&at| self.bytes[at] != self.right[at]).unwrap_or(range.end);
        let [found, right] = [&self.bytes, &self.right].map(|bytes| cell_at(bytes, self.start, at));
        let place = at as isize - self.start as isize;
        Err(format!("byte {place} (cell {}) {found:02x?} where {right:02x?} is right", place.div_euclid(16)))
    }

    /// What is used and what is near it or near the loan's end.
    fn check_near(&self, len: usize) -> Result<(), String> {
        let all = self.bytes.len();
        self.differs(0..(self.high + NEAR).min(all))?;
        let end = self.start + len;
        self.differs(end.saturating_sub(AROUND)..(end + AROUND).min(all))
    }

    fn check_all(&self) -> Result<(), String> {
        self.differs(0..self.bytes.len())
    }
}

/// The cell that a byte stands in.
fn cell_at(bytes: &[u8], start: usize, at: usize) -> Vec<u8> {
    let cell = start + at.saturating_sub(start) / 16 * 16;
    bytes.iter().skip(cell).take(16).copied().collect()
}

/// What a call may write.
#[derive(Clone, Copy, PartialEq, Eq)]
enum Writes {
    Nothing,
    State,
    StateAndStore,
    All,
}

/// Our machine.
pub struct Kept {
    state: Arena,
    live: Arena,
    store: Arena,
    /// Runs refused at their first opcode that changed free bytes of the live stack.
    pub touched: u64,
    turn: u64,
}

impl Default for Kept {
    fn default() -> Kept {
        Kept {
            state: Arena::new(2 * STATE_LENGTH),
            // A loan may be a few hundred cells longer than what is used of it at most.
            live: Arena::new(16 * (LIVE_CELLS + 400)),
            store: Arena::new(16 * (STORE_CELLS + 400)),
            touched: 0,
            turn: 0,
        }
    }
}

impl Kept {
    /// Before a list: memory of any content, nothing loaded, the loans at places that the seed chooses.
    pub fn renew(&mut self, seed: u64) {
        let place = |by: u64| ((seed.wrapping_mul(by) >> 7) % 33) as usize;
        self.state.renew(place(0x9e37_79b9));
        self.live.renew(place(0x85eb_ca6b));
        self.store.renew(place(0xc2b2_ae35));
    }

    /// Carries out the step; answer, fuel and every byte must be as the oracle left them.
    pub fn step(&mut self, step: &Step, after: &After) -> Result<(), String> {
        let Loans { state, live, store } = step.loans;
        let image = step.image.to_vec();
        let mut lent_fuel = [&[0xf5; 8], &step.fuel[..], &[0xf5; 8]].concat();
        let fuel_bytes = 8..8 + step.fuel.len();
        let call = step.call.clone();
        let mut memory =
            Memory { state: self.state.lent(state), live: self.live.lent(live), store: self.store.lent(store) };
        self.turn += 1;
        let fuel = &mut lent_fuel[fuel_bytes];
        let answer = if store < SMALL && self.turn.is_multiple_of(2) {
            fence::call(&image, &mut memory, fuel, &step.page, &call, self.turn.is_multiple_of(4))
        } else {
            ours::call(&image, &mut memory, fuel, &step.page, &call)
        };
        if answer != after.answer {
            return Err(format!("ours {answer:?}\noracle {:?}", after.answer));
        }
        let right_fuel = [&[0xf5; 8], &after.fuel[..], &[0xf5; 8]].concat();
        if lent_fuel != right_fuel {
            return Err(format!("fuel with what is around it {lent_fuel:02x?}, right is {right_fuel:02x?}"));
        }
        if image[..] != step.image[..] || call != step.call {
            return Err("the image or the list of values was written to".into());
        }
        self.check(step, after)
    }

    fn check(&mut self, step: &Step, after: &After) -> Result<(), String> {
        let writes = writes(step, after);
        if writes != Writes::Nothing {
            let [state, live, store] = write(&after.snapshot).bytes();
            self.state.expect(&state, 0);
            if writes != Writes::State {
                self.store.expect(&store, 0);
            }
            if writes == Writes::All {
                let free = (step.loans.live / 16).min(LIVE_CELLS) * 16;
                // A run refused at its first opcode may write behind the used cells; how often it does is told.
                if after.answer.ticks == 0 && is_refusal(after.answer.code) && self.live.check_all().is_err() {
                    self.touched += 1;
                }
                self.live.expect(&live, free);
            }
        }
        self.state.check_all().map_err(|what| format!("state: {what}"))?;
        self.live.check_all().map_err(|what| format!("live: {what}"))?;
        self.store.check_near(step.loans.store).map_err(|what| format!("store: {what}"))
    }

    /// What memory holds after an accepted load.
    pub fn snapshot(&self, program: &Program) -> Snapshot {
        let [state, live, store] = [&self.state, &self.live, &self.store].map(|arena| &arena.bytes[arena.start..]);
        read(program, &state[..STATE_LENGTH], live, store).unwrap_or_else(|_| Snapshot::nothing_loaded())
    }

    /// Nothing around the store was written to in the whole list.
    pub fn end(&self) -> Result<(), String> {
        self.store.check_all().map_err(|what| format!("after the list, store: {what}"))
    }
}

fn is_refusal(number: u32) -> bool {
    (1..code::DONE).contains(&number)
}

fn writes(step: &Step, after: &After) -> Writes {
    let number = after.answer.code;
    match step.call {
        // Refused at an opcode or callback: what it did before that counts.
        Call::Run { .. } if (12..=16).contains(&number) => Writes::All,
        _ if is_refusal(number) => Writes::Nothing,
        Call::Load => Writes::StateAndStore,
        Call::Start { .. } | Call::Run { .. } | Call::Answer { .. } => Writes::All,
        Call::Clear | Call::SetGlobal { .. } | Call::SetBuiltin { .. } => Writes::State,
        Call::Text { .. } | Call::Bytes { .. } | Call::GetGlobal { .. } | Call::GetBuiltin { .. } => Writes::Nothing,
    }
}
