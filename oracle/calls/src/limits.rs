//! States that use as many cells as may be used, or one more or less, in loans of about that length.

use player::{
    call::{Call, LIVE_CELLS, Loans, STORE_CELLS},
    cell::Cell,
    image,
    memory::write,
    random::Random,
    snapshot::{Frame, FrameKind, Object, Snapshot},
    tree::{CodeTree, encode},
};

use crate::{
    trial::{Lending, Trial},
    values::{Counts, name},
};

/// The lengths of a loan for so many cells: from one cell less to one more, and far more.
fn lengths(cells: usize) -> [usize; 7] {
    let whole = 16 * cells;
    [whole - 16, whole - 1, whole, whole + 1, whole + 15, whole + 16, whole + 5_000]
}

/// Each limit with the other loan small.
pub fn run(counts: &mut Counts) -> Result<(), String> {
    let around = |limit: usize| [limit - 1, limit, limit + 1];
    for used in around(STORE_CELLS) {
        lengths(used).iter().try_for_each(|&store| calls(&held(20, used), Loans { store, ..lent(20, 0) }, counts))?;
    }
    for used in around(LIVE_CELLS) {
        lengths(used).iter().try_for_each(|&live| calls(&held(used, 9), Loans { live, ..lent(0, 9) }, counts))?;
    }
    Ok(())
}

/// Loans of so many cells.
fn lent(live: usize, store: usize) -> Loans {
    Loans { live: 16 * live, store: 16 * store, ..Loans::default() }
}

/// One frame that fills so many live cells, and lists that fill so many cells of the store.
fn held(live: usize, store: usize) -> Snapshot {
    let mut snapshot = Snapshot::just_loaded(0);
    let stack = vec![Cell::int(3); live - 6];
    let kind = FrameKind::Lucia { closure: 0, place: 0 };
    snapshot.frames.push(Frame { kind, locals: Vec::new(), handlers: Vec::new(), stack });
    while snapshot.stored() < store {
        let items = (store - snapshot.stored() - 1).min(4_096);
        snapshot.store.push(Object::List(vec![Cell::NULL; items]));
    }
    snapshot
}

fn calls(snapshot: &Snapshot, loans: Loans, counts: &mut Counts) -> Result<(), String> {
    let image = encode(&CodeTree { opcodes: vec![(40, 0)], ..CodeTree::default() });
    let program = image::parse(&image);
    let value = Cell::int(5);
    let all = [
        Call::GetGlobal { number: 255 },
        Call::SetBuiltin { number: 255, value },
        Call::Text { value },
        Call::Clear,
        Call::Load,
    ];
    let mut random = Random::new(loans.store as u64);
    all.iter().try_for_each(|call| {
        let mut lending = Lending::new(&mut random, &write(snapshot).bytes(), loans);
        let program = program.as_ref().map_err(|&number| number);
        let answer = Trial { image: &image, program, page: &[], call }.run(&mut lending)?;
        *counts.entry((name(call), answer.code)).or_default() += 1;
        Ok(())
    })
}
