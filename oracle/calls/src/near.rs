//! Values of every kind, cells next to them, and pages.

use player::{
    cell::{Cell, tag},
    image::{Constant, Program},
    random::Random,
    snapshot::{Object, Snapshot},
};

/// Every tag that the layout names.
const TAGS: [u32; 21] = [0, 1, 2, 3, 4, 5, 6, 7, 8, 20, 23, 24, 39, 64, 65, 66, 67, 68, 128, 129, 130];
/// The limits and numbers next to them.
#[rustfmt::skip]
const EDGES: [u64; 32] = [
    0, 1, 2, 3, 6, 7, 10, 11, 15, 16, 17, 31, 32, 33, 51, 52, 63, 64, 65, 255, 256, 257, 1_024, 4_095, 4_096, 4_097,
    65_535, 65_536, 1 << 31, (1 << 32) - 1, 1 << 60, u64::MAX,
];

/// A number next to this one, at a limit, or equal to it in the lower half only.
pub fn near_number(random: &mut Random, number: u64) -> u64 {
    match random.below(8) {
        0 => number.wrapping_add(1),
        1 => number.wrapping_sub(1),
        2 => number ^ 1 << random.below(64),
        3 => number.wrapping_add(1 << 32),
        4 => number ^ 1 << random.below(17),
        5 => number.wrapping_add(random.below(20) as u64),
        _ => *random.pick(&EDGES),
    }
}

/// The cell with another field.
pub fn near(random: &mut Random, cell: Cell) -> Cell {
    let Cell { tag, number, payload } = cell;
    match random.below(5) {
        0 => Cell { tag: *random.pick(&TAGS), ..cell },
        1 => Cell { tag: near_number(random, tag.into()) as u32, ..cell },
        2 => Cell { number: near_number(random, number.into()) as u32, ..cell },
        3 => Cell { payload: near_number(random, payload), ..cell },
        _ => Cell::new(tag, payload as u32, number.into()),
    }
}

/// The values that name something: constants of the program, objects of the store.
pub struct Names {
    constants: Vec<Cell>,
    objects: Vec<Cell>,
}

impl Names {
    pub fn of(program: &Program, snapshot: &Snapshot) -> Names {
        let constants = program.codes.iter().zip(0..).flat_map(|(code, number)| {
            code.constants.iter().zip(0..).filter_map(move |(constant, index)| {
                let tag = match constant {
                    Constant::Str(_) => tag::STR,
                    Constant::Bytes(_) => tag::BYTES,
                    Constant::UserEffect { .. } => tag::USER_EFFECT,
                    _ => return None,
                };
                Some(Cell::new(tag, number, index))
            })
        });
        let objects = snapshot.store.iter().zip(snapshot.handles()).map(|(object, handle)| {
            let tag = match object {
                Object::Closure { .. } => tag::CLOSURE,
                Object::List(_) => tag::LIST,
                Object::Continuation(_) => tag::CONTINUATION,
            };
            Cell::new(tag, handle as u32, 0)
        });
        Names { constants: constants.collect(), objects: objects.collect() }
    }

    /// A value of any kind, one that is next to a value, or any cell.
    pub fn value(&self, random: &mut Random) -> Cell {
        let good = self.good(random);
        match random.below(8) {
            0..=3 => good,
            4..=6 => near(random, good),
            _ => Cell::new(random.next_u64() as u32 & 255, random.next_u64() as u32, random.next_u64()),
        }
    }

    /// A Str, or what is next to one.
    pub fn text(&self, random: &mut Random) -> Cell {
        let message = Cell::new(tag::MESSAGE, 1 + random.below(6) as u32, 0);
        let constant = self.constant(random, tag::STR).filter(|_| random.chance(1, 2));
        self.or_other(random, constant.unwrap_or(message))
    }

    /// A Bytes, or what is next to one.
    pub fn bytes(&self, random: &mut Random) -> Cell {
        let bytes = self.constant(random, tag::BYTES).unwrap_or(Cell::new(tag::BYTES, 0, 0));
        self.or_other(random, bytes)
    }

    fn or_other(&self, random: &mut Random, good: Cell) -> Cell {
        match random.below(8) {
            0..=4 => good,
            5..=6 => near(random, good),
            _ => self.value(random),
        }
    }

    fn constant(&self, random: &mut Random, tag: u32) -> Option<Cell> {
        let constants: Vec<Cell> = self.constants.iter().filter(|cell| cell.tag == tag).copied().collect();
        (!constants.is_empty()).then(|| *random.pick(&constants))
    }

    /// An object of the store, which a load never leaves empty.
    pub fn object(&self, random: &mut Random) -> Cell {
        *random.pick(&self.objects)
    }

    /// An effect of the program, or a builtin one.
    pub fn effect(&self, random: &mut Random) -> Cell {
        self.constant(random, tag::USER_EFFECT).unwrap_or(Cell::new(tag::BUILTIN_EFFECT, 1, 0))
    }

    /// A value of any kind.
    pub fn good(&self, random: &mut Random) -> Cell {
        match random.below(13) {
            0 => Cell::NULL,
            1 => Cell::new(tag::BOOL, random.below(2) as u32, 0),
            2 => Cell::int(random.next_u64() as i64),
            3 => Cell::new(tag::FLOAT, 0, random.next_u64()),
            4 => Cell::new(tag::MESSAGE, 1 + random.below(6) as u32, 0),
            5 => Cell::new(tag::CALLBACK, random.next_u64() as u32, random.next_u64()),
            6 => Cell::new(tag::BUILTIN_EFFECT, random.below(3) as u32, 0),
            7..=9 if !self.constants.is_empty() => *random.pick(&self.constants),
            _ => self.object(random),
        }
    }
}

/// A global's or builtin's number.
pub fn number(random: &mut Random) -> u32 {
    match random.below(8) {
        0 => *random.pick(&[0, 255, 256, 257, 1 << 8, 1 << 16, 1 << 31, u32::MAX]),
        _ => random.below(256) as u32,
    }
}

/// A page: lines may be missing, empty or unfinished.
pub fn page(random: &mut Random) -> Vec<u8> {
    let lines: [&[u8]; 7] = [b"\n", b"\n", b"arguments\n", b"a\r\n", b"\xff\x00\n", b"no end", b""];
    (0..random.below(10)).flat_map(|_| *random.pick(&lines)).copied().collect()
}
