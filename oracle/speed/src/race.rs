//! Rounds of the two sides in turn, so that both see the same machine; of each the least.

use std::time::{Duration, Instant};

use player::{assemble::assemble, image};

use crate::{ours::Ours, rust::Rust, scripts::Script};

/// Ticks and calls of one run of ours; a call's entry in microseconds, and a turn of each side in nanoseconds.
pub struct Figures {
    pub ticks: u64,
    pub calls: u64,
    pub entry: f64,
    pub ours: f64,
    pub rust: f64,
}

const LEAST_ROUNDS: u32 = 20;
const TIME: Duration = Duration::from_millis(1_500);

pub fn race(script: &Script) -> Result<Figures, String> {
    let image = assemble(&script.image).map_err(|error| error.to_string())?;
    let parse = || image::parse(&image).map_err(|number| format!("the image is refused with {number}"));
    let rust = Rust::new(script, &image, parse()?);
    let mut ours = Ours::new(script, &image, parse()?, rust.spent)?;
    let entry = (0..200).map(|_| ours.entry()).min().unwrap_or_default();
    let [mut our_time, mut rust_time] = [Duration::MAX; 2];
    let mut took = Default::default();
    let begin = Instant::now();
    let mut rounds = 0;
    while rounds < LEAST_ROUNDS || begin.elapsed() < TIME {
        let (time, taken) = ours.round()?;
        our_time = our_time.min(time);
        took = taken;
        let (time, rust_left) = rust.round();
        rust_time = rust_time.min(time);
        // All rounds are the same, so that one is compared.
        if rounds == 0 && ours.left()? != rust_left {
            return Err(format!("ours left {:?}, the Rust {rust_left:?}", ours.left()?));
        }
        rounds += 1;
    }
    let a_turn = |time: Duration| time.as_nanos() as f64 / script.turns as f64;
    let entry = entry.as_nanos() as f64 / 1_000.0;
    Ok(Figures { ticks: took.ticks, calls: took.calls, entry, ours: a_turn(our_time), rust: a_turn(rust_time) })
}
