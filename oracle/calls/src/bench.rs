//! How long a load and the scan at a call's entry take, beside `memcpy` and beside the oracle's reader of images, in one run.

use std::{
    hint::black_box,
    time::{Duration, Instant},
};

use player::{
    call::{Call, LIVE_CELLS, Loans, STORE_CELLS},
    cell::{Cell, tag},
    image::{self, MAX_BYTES, Program},
    memory::write,
    random::Random,
    snapshot::{Frame, FrameKind, Handler, Object, Outcome, Snapshot},
    tree::{CodeTree, ConstantTree, encode},
};

use crate::{
    ours,
    trial::{Lending, Trial},
};

/// The time of one call: the least of many short rounds, of which some are not interrupted on a busy machine either.
fn time(mut call: impl FnMut()) -> Duration {
    let mut round = |calls: u32| {
        let begin = Instant::now();
        (0..calls).for_each(|_| call());
        begin.elapsed() / calls
    };
    let once = (0..5).map(|_| round(1)).min().unwrap_or_default();
    let calls = (Duration::from_micros(300).as_nanos() / once.as_nanos().max(1)).max(1) as u32;
    (0..300).map(|_| round(calls)).min().unwrap_or_default()
}

fn nanoseconds(time: Duration, bytes: usize) -> f64 {
    time.as_nanos() as f64 / bytes as f64
}

pub fn run() -> Result<(), String> {
    loads();
    scans()
}

/// A code of 61 opcodes with 12 constants, 8 globals and 3 captures.
fn script() -> CodeTree {
    let mixed = |n: usize| match n % 4 {
        0 => ConstantTree::Int(n as i64),
        1 => ConstantTree::Str(b"via_cost".to_vec()),
        2 => ConstantTree::UserEffect { params: 1, variadic: false, name: b"via_cost".to_vec() },
        _ => ConstantTree::Null,
    };
    CodeTree {
        params: 2,
        locals: 4,
        opcodes: (0..60).map(|n| [(6, 0), (1, 1), (19, 0), (0, 0)][n % 4]).chain([(40, 0)]).collect(),
        globals: (0..8).collect(),
        captures: (0..3).map(|index| (0, index)).collect(),
        constants: (0..12).map(mixed).collect(),
        ..CodeTree::default()
    }
}

/// An image of this code, with so many more of them inside it.
fn image_of(inner: usize) -> Vec<u8> {
    encode(&CodeTree { const_codes: vec![script(); inner], ..script() })
}

/// A small image and a full one.
fn images() -> [(String, Vec<u8>); 2] {
    [1, MAX_BYTES / encode(&script()).len() - 1].map(|inner| (format!("{} codes", inner + 1), image_of(inner)))
}

fn loads() {
    println!("{:<28} {:>7} {:>10} {:>10} {:>10}", "load of an image", "bytes", "ours", "oracle", "memcpy");
    for (name, image) in images() {
        let loans = Loans { live: 0, store: 64, ..Loans::default() };
        let mut lending = Lending::new(&mut Random::new(1), &Default::default(), loans);
        let mut memory = lending.memory();
        let ours = time(|| {
            black_box(ours::call(black_box(&image), &mut memory, &mut [], &[], &Call::Load));
        });
        let oracle = time(|| {
            black_box(image::parse(black_box(&image))).ok();
        });
        let copy = copy_time(&image);
        let [ours, oracle, copy] = [ours, oracle, copy].map(|time| time.as_nanos() as f64 / 1_000.0);
        println!("{name:<28} {:>7} {ours:>7.2} µs {oracle:>7.2} µs {copy:>7.2} µs", image.len());
    }
}

fn copy_time(bytes: &[u8]) -> Duration {
    let mut to = vec![0; bytes.len()];
    time(|| {
        to.copy_from_slice(black_box(bytes));
        black_box(&to);
    })
}

fn scans() -> Result<(), String> {
    println!(
        "\n{:<28} {:>7} {:>8} {:>10} {:>9} {:>9}",
        "a global is read", "bytes", "whole", "no frames", "a byte", "memcpy"
    );
    for (size, image) in images() {
        let program = image::parse(&image).map_err(|number| format!("the image is refused with {number}"))?;
        let empty = Snapshot::just_loaded(3);
        let base = entry(&image, &program, &empty)?;
        for (name, snapshot) in full_states() {
            let whole = entry(&image, &program, &snapshot)?;
            let [_, live, store] = write(&snapshot).bytes();
            let bytes = live.len() + store.len();
            let copy = nanoseconds(copy_time(&store) + copy_time(&live), bytes);
            let scanned = nanoseconds(whole.saturating_sub(base), bytes);
            let [whole, base] = [whole, base].map(|time| time.as_nanos() as f64 / 1_000.0);
            let name = format!("{name}, {size}");
            println!("{name:<28} {bytes:>7} {whole:>5.1} µs {base:>7.2} µs {scanned:>6.3} ns {copy:>6.3} ns");
        }
    }
    Ok(())
}

/// The time of a call that reads a global in this state, which is accepted and answered as by the model.
fn entry(image: &[u8], program: &Program, snapshot: &Snapshot) -> Result<Duration, String> {
    let mut lending = Lending::new(&mut Random::new(2), &write(snapshot).bytes(), Loans::default());
    let call = Call::GetGlobal { number: 7 };
    let answer = Trial { image, program: Ok(program), page: &[], call: &call }.run(&mut lending)?;
    if answer.code != 0 {
        return Err(format!("the state is refused with {}", answer.code));
    }
    let mut memory = lending.memory();
    Ok(time(|| {
        black_box(ours::call(black_box(image), &mut memory, &mut [], &[], &call));
    }))
}

/// Stores and live stacks without a free cell.
fn full_states() -> Vec<(&'static str, Snapshot)> {
    let closures = |_, handle| Object::Closure { code: 1, upvalues: vec![Cell::new(tag::CLOSURE, handle, 0); 3] };
    let list = |item: Cell| move |room: usize, _| Object::List(vec![item; room.min(4_097) - 1]);
    let continuation = |room: usize, _| match room {
        0..33 => Object::List(vec![Cell::NULL; room - 1]),
        _ => Object::Continuation(vec![frame(); ((room - 1) / 16).min(64)]),
    };
    vec![
        ("nothing more", live_only()),
        ("closures", full(closures)),
        ("lists of Ints", full(list(Cell::int(7)))),
        ("lists of Str", full(list(Cell::new(tag::STR, 1, 1)))),
        ("lists of effects", full(list(Cell::new(tag::USER_EFFECT, 1, 2)))),
        (
            "lists of lists",
            full(|room: usize, handle| match handle {
                0 => Object::List(Vec::new()),
                _ => Object::List(vec![Cell::new(tag::LIST, 4, 0); room.min(4_097) - 1]),
            }),
        ),
        ("continuations", full(continuation)),
    ]
}

/// A frame of 16 cells: 4 locals, 2 handlers, 2 stack values.
fn frame() -> Frame {
    let handler = |effect| Handler { effect, target: 5, stack_size: 1 };
    Frame {
        kind: FrameKind::Lucia { closure: 0, place: 3 },
        locals: vec![Cell::int(1); 4],
        handlers: vec![handler(Cell::new(tag::BUILTIN_EFFECT, 0, 0)), handler(Cell::new(tag::USER_EFFECT, 1, 2))],
        stack: vec![Cell::new(tag::CLOSURE, 0, 0), Cell::int(2)],
    }
}

/// 256 frames of 16 cells.
fn live_only() -> Snapshot {
    let frames = vec![frame(); LIVE_CELLS / 16];
    Snapshot { frames, result: Outcome::None, ..Snapshot::just_loaded(3) }
}

/// Objects, each made for the cells left and the handle of the one before, until the store is full.
fn full(object: impl Fn(usize, u32) -> Object) -> Snapshot {
    let mut snapshot = live_only();
    let (mut used, mut last) = (snapshot.stored(), 0);
    while used < STORE_CELLS {
        let next = object(STORE_CELLS - used, last);
        last = used as u32;
        used += next.cost();
        snapshot.store.push(next);
    }
    snapshot
}
