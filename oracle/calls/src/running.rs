//! Starts, runs and answers with values of every kind, good and malformed.

use player::{
    call::{Call, kind},
    cell::{Cell, bytes_of, tag},
    random::Random,
    snapshot::Snapshot,
    step::fuel_bytes,
};

use crate::near::Names;

/// A call whose turn it is on this state, mostly.
pub fn running_call(random: &mut Random, names: &Names, held: &Snapshot) -> Call {
    let turn = if held.wait {
        2
    } else if held.frames.is_empty() {
        0
    } else {
        1
    };
    match if random.chance(7, 8) { turn } else { random.below(3) } {
        0 => Call::Start { function: function(random, names), args: list(random, names, 3) },
        1 => Call::Run { ticks: *random.pick(&[0, 1, 1, 2, 3, 10, 65, 66, 300, 2_000]) },
        _ => answer(random, names),
    }
}

/// Fuel at both ends and between, mostly of 5 bytes.
pub fn fuel(random: &mut Random) -> Vec<u8> {
    if random.chance(1, 64) {
        return vec![1; *random.pick(&[0, 1, 4, 6, 16])];
    }
    let any = random.next_u64() as i32;
    let number = *random.pick(&[0, 1, 4, 67, 68, 1_000, 100_000, 100_000, i32::MAX, i32::MIN, i32::MIN + 5, -5, any]);
    fuel_bytes(number, *random.pick(&[0, 0, 0, 0, 0, 1, 255]))
}

fn answer(random: &mut Random, names: &Names) -> Call {
    let kind = if random.chance(1, 32) { random.next_u64() as u32 } else { random.below(7) as u32 };
    let subject = match kind {
        kind::CALL | kind::TAIL_CALL => function(random, names),
        kind::PERFORM | kind::TAIL_PERFORM => effect(random, names),
        _ => names.value(random),
    };
    let takes_args = kind <= kind::TAIL_PERFORM || random.chance(1, 32);
    let args = if takes_args { list(random, names, 3) } else { Vec::new() };
    let takes_handlers = kind == kind::CALL || random.chance(1, 32);
    let handlers = if takes_handlers { handlers(random, names) } else { Vec::new() };
    Call::Answer { kind, word: random.next_u64(), subject, args, handlers }
}

/// A function, or what is next to one.
fn function(random: &mut Random, names: &Names) -> Cell {
    match random.below(8) {
        0..=4 => names.object(random),
        5 => Cell::new(tag::CALLBACK, random.next_u64() as u32, random.next_u64()),
        _ => names.value(random),
    }
}

/// An effect, or what is next to one.
fn effect(random: &mut Random, names: &Names) -> Cell {
    match random.below(8) {
        0..=4 => names.effect(random),
        5..=6 => Cell::new(tag::BUILTIN_EFFECT, random.below(3) as u32, 0),
        _ => names.value(random),
    }
}

fn handlers(random: &mut Random, names: &Names) -> Vec<u8> {
    let count = if random.chance(1, 8) { 14 + random.below(6) } else { random.below(4) };
    let cells: Vec<Cell> = (0..count).map(|_| effect(random, names)).collect();
    cut(random, bytes_of(&cells))
}

/// Mostly good values.
fn list(random: &mut Random, names: &Names, most: usize) -> Vec<u8> {
    let good = random.chance(7, 8);
    let count = random.below(most + 1);
    let cells: Vec<Cell> = (0..count).map(|_| if good { names.good(random) } else { names.value(random) }).collect();
    cut(random, bytes_of(&cells))
}

/// Now and then no whole number of cells.
fn cut(random: &mut Random, mut bytes: Vec<u8>) -> Vec<u8> {
    if random.chance(1, 64) {
        bytes.extend(vec![0; 1 + random.below(15)]);
    }
    bytes
}
