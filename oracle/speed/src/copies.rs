//! The least that a capture and a resume cost: the frames go into the store, behind those of the last turn, and back.

use std::hint::black_box;

use crate::clock::timed;

const CELL: usize = 16;
const ROUNDS: usize = 300;

/// Nanoseconds a turn of these two copies alone, the least of the rounds.
pub fn nanoseconds(cells: usize, turns: usize) -> f64 {
    let mut live = vec![1_u8; CELL * cells];
    let mut store = vec![0_u8; CELL * cells * turns];
    let least = (0..ROUNDS).map(|_| {
        store.fill(0);
        let (time, ()) = timed(|| {
            for part in store.chunks_exact_mut(CELL * cells) {
                part.copy_from_slice(black_box(&live));
                live.copy_from_slice(black_box(part));
            }
        });
        time
    });
    least.min().unwrap_or_default().as_nanos() as f64 / turns as f64
}
