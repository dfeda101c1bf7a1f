//! Lists of calls as bytes, with what the Rust answers, for a program in C (`calls/replay.c`).

use crate::{
    call::{Answer, Call},
    cell::Cell,
    memory::write,
    step::{After, Step},
};

/// One call: 20 numbers of 8 bytes, then image, page, arguments, handlers, fuel, and what must come out: fuel, state block, live stack and store, the last
/// three only if something is loaded.
pub fn record(step: &Step, after: &After) -> Vec<u8> {
    let (number, small, word, cell) = numbers(&step.call);
    let [args, handlers] = lists(&step.call);
    let held = if after.snapshot.loaded { write(&after.snapshot).bytes() } else { Default::default() };
    let Answer { code, ticks, value, from, start, len } = after.answer;
    let lengths = [step.image.len(), step.page.len(), args.len(), handlers.len(), step.fuel.len()];
    let loans = [step.loans.state, step.loans.live, step.loans.store];
    let mut head = vec![number, small, word, cell.low(), cell.high()];
    head.extend(lengths.into_iter().chain(loans).map(|len| len as u64));
    head.extend(held.each_ref().map(|part| part.len() as u64));
    head.extend([code.into(), ticks.into(), value.low() | start, value.high() | len | u64::from(from) << 63]);
    let mut bytes: Vec<u8> = head.into_iter().flat_map(u64::to_le_bytes).collect();
    for part in [&step.image[..], &step.page, args, handlers, &step.fuel, &after.fuel, &held[0], &held[1], &held[2]] {
        bytes.extend(part);
    }
    bytes
}

/// The lists of values that a call brings: arguments, then handlers.
pub fn lists(call: &Call) -> [&[u8]; 2] {
    match call {
        Call::Start { args, .. } => [args, &[]],
        Call::Answer { args, handlers, .. } => [args, handlers],
        _ => [&[], &[]],
    }
}

/// The call's number, its number of 32 bits, its word and its value.
pub fn numbers(call: &Call) -> (u64, u64, u64, Cell) {
    match *call {
        Call::Load => (0, 0, 0, Cell::NULL),
        Call::Start { function, .. } => (1, 0, 0, function),
        Call::Run { ticks } => (2, ticks.into(), 0, Cell::NULL),
        Call::Answer { kind, word, subject, .. } => (3, kind.into(), word, subject),
        Call::Clear => (4, 0, 0, Cell::NULL),
        Call::Text { value } => (5, 0, 0, value),
        Call::Bytes { value } => (6, 0, 0, value),
        Call::SetGlobal { number, value } => (7, number.into(), 0, value),
        Call::GetGlobal { number } => (8, number.into(), 0, Cell::NULL),
        Call::SetBuiltin { number, value } => (9, number.into(), 0, value),
        Call::GetBuiltin { number } => (10, number.into(), 0, Cell::NULL),
    }
}
