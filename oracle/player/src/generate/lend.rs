//! What random calls are lent: mostly enough of everything, now and then just enough, too little, or of a wrong form.

use std::rc::Rc;

use crate::{
    call::{Call, LIVE_CELLS, Loans, STATE_LENGTH, STORE_CELLS},
    damage::damage,
    image,
    random::Random,
    snapshot::Snapshot,
    step::fuel_bytes,
};

/// How the memory of a list is lent.
enum Memory {
    /// All of it, and sometimes more.
    Full,
    /// The same few cells for each call.
    Small { live: usize, store: usize },
    /// About what is used.
    Near,
}

pub struct Lender {
    memory: Memory,
    page: Rc<[u8]>,
}

impl Lender {
    pub fn new(random: &mut Random) -> Lender {
        let memory = match random.below(10) {
            0..=6 => Memory::Full,
            7 => Memory::Small { live: 6 + random.below(120), store: 1 + random.below(200) },
            _ => Memory::Near,
        };
        Lender { memory, page: page(random) }
    }

    /// The lent memory's lengths in bytes, not all of them multiples of 16.
    pub fn loans(&self, random: &mut Random, snapshot: &Snapshot) -> Loans {
        let near = |random: &mut Random, used: usize| match random.below(12) {
            0 => used.saturating_sub(1),
            1..=2 => used,
            3..=7 => used + random.below(24),
            _ => used + random.below(200),
        };
        let (live, store) = match self.memory {
            Memory::Near if random.chance(1, 2) => {
                (near(random, snapshot.live()), near(random, snapshot.stored().max(1)))
            }
            Memory::Small { live, store } => (live, store),
            Memory::Full | Memory::Near => (LIVE_CELLS + random.below(2), STORE_CELLS + random.below(2)),
        };
        let state =
            if random.chance(1, 150) { *random.pick(&[0, STATE_LENGTH - 1, STATE_LENGTH + 1]) } else { STATE_LENGTH };
        let odd = if random.chance(1, 10) { 1 + random.below(15) } else { 0 };
        Loans { state, live: live * 16 + odd, store: store * 16 + odd }
    }

    /// The image of a call: the list's own, for a load now and then another or a damaged one, else now and then a refused one.
    pub fn image(&self, random: &mut Random, own: &Rc<[u8]>, call: &Call) -> Rc<[u8]> {
        let is_load = *call == Call::Load;
        if is_load && random.chance(1, 6) {
            return super::image(random).0;
        }
        if !random.chance(1, if is_load { 8 } else { 60 }) {
            return Rc::clone(own);
        }
        let damaged = damage(own, random);
        if is_load || image::parse(&damaged).is_err() { damaged.into() } else { Rc::clone(own) }
    }

    /// The fuel of a call: what the last one left, or a new loan if this call charges.
    pub fn fuel(&self, random: &mut Random, last: &[u8], charges: bool) -> Vec<u8> {
        let number = match random.below(16) {
            _ if !charges => return last.to_vec(),
            0..=5 if last.len() == 5 => return last.to_vec(),
            0..=9 => 100_000,
            10 => 1 + random.below(150) as i32,
            11 => 60 + random.below(12) as i32,
            12 if random.chance(1, 2) => -(random.below(100) as i32),
            13 => i32::MAX,
            14 if random.chance(1, 2) => i32::MIN + random.below(80) as i32,
            _ => 1_000 + random.below(3_000) as i32,
        };
        if random.chance(1, 60) {
            return vec![1; *random.pick(&[0, 4, 6])];
        }
        fuel_bytes(number, if random.chance(1, 12) { *random.pick(&[1, 7, 255]) } else { 0 })
    }

    pub fn page(&mut self, random: &mut Random) -> Rc<[u8]> {
        if random.chance(1, 20) {
            self.page = page(random);
        }
        Rc::clone(&self.page)
    }
}

/// A page of messages: some may be missing, empty or unfinished.
fn page(random: &mut Random) -> Rc<[u8]> {
    let lines = ["arguments\n", "operator\n", "\n", "a\tb\n", "\u{e9}\n"];
    let mut page: String = (0..random.below(9)).map(|_| *random.pick(&lines)).collect();
    if random.chance(1, 3) {
        page.push_str("unfinished");
    }
    page.into_bytes().into()
}
