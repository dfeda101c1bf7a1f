//! The snapshot that bytes hold, or their refusal.

use super::{mark, write};
use crate::{
    call::{LIVE_CELLS, STATE_LENGTH, STORE_CELLS},
    cell::Cell,
    driver::refusal,
    form::Form,
    image::Program,
    snapshot::{Fault, Frame, FrameKind, Handler, Object, Outcome, Snapshot},
};

/// What memory holds for this program: the one snapshot in form that is written as these cells; else 6, 10 or 7.
pub fn read(program: &Program, state: &[u8], live: &[u8], store: &[u8]) -> Result<Snapshot, u32> {
    if state.len() != STATE_LENGTH {
        return Err(refusal::LENGTH);
    }
    let state: Vec<Cell> = state.chunks_exact(16).map(Cell::from_bytes).collect();
    if state[0].tag != mark::LOADED {
        return Err(refusal::NOTHING_LOADED);
    }
    let snapshot = decode(&state, Cells::lent(live, LIVE_CELLS), Cells::lent(store, STORE_CELLS));
    let snapshot = snapshot.ok_or(refusal::FORM)?;
    // Decoding looks at no more than it needs; that nothing else stands there is seen by writing it again.
    let written = write(&snapshot);
    let is_same = written.state == state && stands(&written.live, live) && stands(&written.store, store);
    if is_same && Form::new(program, &snapshot).check(0).is_ok() { Ok(snapshot) } else { Err(refusal::FORM) }
}

/// Whether memory begins with these cells.
fn stands(cells: &[Cell], bytes: &[u8]) -> bool {
    cells.len() <= bytes.len() / 16 && bytes.chunks_exact(16).zip(cells).all(|(bytes, cell)| cell.bytes() == *bytes)
}

/// A walk over cells.
struct Cells<'a> {
    bytes: &'a [u8],
}

impl<'a> Cells<'a> {
    /// The cells of a loan, of which so many are used at most.
    fn lent(bytes: &'a [u8], most: usize) -> Cells<'a> {
        Cells { bytes: &bytes[..(bytes.len() / 16).min(most) * 16] }
    }

    fn is_empty(&self) -> bool {
        self.bytes.is_empty()
    }

    /// The next so many cells as a walk of their own.
    fn part(&mut self, count: u64) -> Option<Cells<'a>> {
        let len = usize::try_from(count).ok()?.checked_mul(16)?;
        let (bytes, rest) = self.bytes.split_at_checked(len)?;
        self.bytes = rest;
        Some(Cells { bytes })
    }

    fn take(&mut self, count: u64) -> Option<Vec<Cell>> {
        Some(self.part(count)?.bytes.chunks_exact(16).map(Cell::from_bytes).collect())
    }

    fn next(&mut self) -> Option<Cell> {
        self.part(1).map(|cell| Cell::from_bytes(cell.bytes))
    }
}

fn decode(state: &[Cell], mut live: Cells, mut store: Cells) -> Option<Snapshot> {
    let [head, turn, value, more] = *state.first_chunk()?;
    let mut objects = store.part(head.payload)?;
    let mut store = Vec::new();
    while !objects.is_empty() {
        store.push(object(&mut objects)?);
    }
    Some(Snapshot {
        loaded: true,
        frames: frames(&mut live, head.number)?,
        result: outcome(turn.payload, value, more, &mut live)?,
        wait: turn.number == 1,
        left: turn.tag,
        store,
        globals: state[4..260].to_vec(),
        builtins: state[260..].to_vec(),
    })
}

fn object(cells: &mut Cells) -> Option<Object> {
    let head = cells.next()?;
    Some(match head.tag {
        mark::CLOSURE => Object::Closure { code: head.number, upvalues: cells.take(head.payload)? },
        mark::LIST => Object::List(cells.take(head.payload)?),
        mark::CONTINUATION => Object::Continuation(frames(cells, head.number)?),
        _ => return None,
    })
}

fn frames(cells: &mut Cells, count: u32) -> Option<Vec<Frame>> {
    (0..count).map(|_| frame(cells)).collect()
}

fn frame(cells: &mut Cells) -> Option<Frame> {
    let head = cells.take(6)?;
    let [counts, subject, place] = *head.first_chunk()?;
    let kind = match counts.tag {
        mark::LUCIA => FrameKind::Lucia { closure: subject.number, place: place.number },
        mark::HOST => FrameKind::Host { number: subject.number, word: subject.payload },
        mark::EFFECT => FrameKind::Effect { effect: subject },
        _ => return None,
    };
    let locals = cells.take(counts.number.into())?;
    let handlers = (0..counts.payload).map(|_| handler(cells)).collect::<Option<_>>()?;
    Some(Frame { kind, locals, handlers, stack: cells.take(place.payload)? })
}

fn handler(cells: &mut Cells) -> Option<Handler> {
    let (effect, target) = (cells.next()?, cells.next()?);
    Some(Handler { effect, target: target.number, stack_size: target.payload })
}

/// The result of a kind; an effect's arguments stand in front of `live`.
fn outcome(kind: u64, value: Cell, more: Cell, live: &mut Cells) -> Option<Outcome> {
    let Cell { tag, number, payload } = value;
    // A type that is no 32-bit number is none, and is written otherwise.
    let first = payload as u32;
    Some(match kind {
        0 => Outcome::None,
        1 => Outcome::Value(value),
        2 => Outcome::Effect { effect: value, args: live.take(more.payload)? },
        3 => Outcome::Error(Fault::CallArguments {
            start: tag.into(),
            end: (number == 0).then_some(tag.into()),
            given: payload,
        }),
        4 => Outcome::Error(Fault::UnOperator { opcode: tag, operand: number, of: first }),
        5 => Outcome::Error(Fault::BinOperator { opcode: tag, operand: number, of: [first, more.tag] }),
        6 => Outcome::Error(Fault::MetaUnOperator { name: tag, of: first }),
        7 => Outcome::Error(Fault::MetaBinOperator { name: tag, of: [first, more.tag] }),
        8 => Outcome::Error(Fault::ZeroDivisor),
        9 => Outcome::Error(Fault::LuciaError(value)),
        10 => Outcome::Error(Fault::LuciaPanic(value)),
        _ => return None,
    })
}

#[cfg(test)]
mod tests {
    use std::ops::Range;

    use super::*;
    use crate::{
        cell::tag,
        generate::{self, State},
        image,
        memory::Written,
        random::Random,
    };

    fn read_written(program: &Program, written: &Written) -> Result<Snapshot, u32> {
        let [state, live, store] = written.bytes();
        read(program, &state, &live, &store)
    }

    /// The states that random lists lead to, each with its program.
    fn states(seeds: Range<u64>) -> impl Iterator<Item = (Program, Snapshot)> {
        let parsed = |State { image, snapshot }| (image::parse(&image).expect("a loaded image is accepted"), snapshot);
        seeds.flat_map(generate::states).map(parsed)
    }

    #[test]
    fn every_state_of_random_lists_is_read_as_it_was_written() {
        let mut count = 0;
        for (program, snapshot) in states(0..600) {
            let written = write(&snapshot);
            assert_eq!((written.state.len() * 16, written.live.len()), (STATE_LENGTH, snapshot.live()));
            assert_eq!(written.store.len(), snapshot.stored());
            assert_eq!(read_written(&program, &written).as_ref(), Ok(&snapshot));
            count += 1;
        }
        assert!(count > 5_000, "{count} states");
    }

    #[test]
    fn bytes_behind_the_used_cells_do_not_count() {
        let mut random = Random::new(1);
        for (program, snapshot) in states(0..40) {
            let [state, mut live, mut store] = write(&snapshot).bytes();
            for loan in [&mut live, &mut store] {
                loan.extend((0..random.below(60)).map(|_| random.next_u64() as u8));
            }
            assert_eq!(read(&program, &state, &live, &store).as_ref(), Ok(&snapshot));
            assert_eq!(read(&program, &state[1..], &live, &store), Err(refusal::LENGTH));
            let cut = &store[..snapshot.stored() * 16 - 1];
            assert_eq!(read(&program, &state, &live, cut), Err(refusal::FORM));
        }
    }

    /// Any bit of a cell's unnamed fields, and the numbers next to the named ones.
    #[test]
    fn what_is_not_named_is_refused() {
        let (program, snapshot) = states(1..2).next().expect("the list of seed 1 has a load");
        let good = write(&snapshot);
        let refused = |change: &dyn Fn(&mut Written)| {
            let mut written = good.clone();
            change(&mut written);
            read_written(&program, &written).err()
        };
        assert_eq!(refused(&|_| ()), None);
        assert_eq!(refused(&|written| written.state[0].tag = 2), Some(refusal::NOTHING_LOADED));
        let form = Some(refusal::FORM);
        assert_eq!(refused(&|written| written.state[0].number = 1), form);
        assert_eq!(refused(&|written| written.state[0].payload += 1), form);
        assert_eq!(refused(&|written| written.state[1].tag = 63), form);
        assert_eq!(refused(&|written| written.state[1].number = 1), form);
        assert_eq!(refused(&|written| written.state[1].payload = 11), form);
        assert_eq!(refused(&|written| written.state[2].payload = 1), form);
        assert_eq!(refused(&|written| written.state[3].number = 1), form);
        assert_eq!(refused(&|written| written.state[4] = Cell::new(tag::INT, 0, 5)), None);
        assert_eq!(refused(&|written| written.state[4] = Cell::new(tag::INT, 1, 5)), form);
        assert_eq!(refused(&|written| written.store[0].tag = mark::CONTINUATION), form);
        assert_eq!(refused(&|written| written.store[0].payload += 1), form);
        assert_eq!(refused(&|written| written.store.clear()), form);
    }
}
