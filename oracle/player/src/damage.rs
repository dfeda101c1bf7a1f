//! Images damaged in one or two places, in ways that hit every refusal of an image often, and just miss it as often.

use crate::{
    image::{
        HEADER_BYTES, MAX_BYTES, MAX_CAPTURES, MAX_CODES, MAX_CONSTANTS, MAX_DEPTH, MAX_GLOBALS, MAX_LOCALS,
        MAX_OPCODES, MAX_PARAMS, OperandKind, Table, kind, operand_kind, parse,
    },
    random::Random,
    tree::{CodeTree, ConstantTree, encode},
};

/// A damaged image; damage to the tree, which needs an accepted image, comes before damage to bytes.
pub fn damage(image: &[u8], random: &mut Random) -> Vec<u8> {
    let count = 1 + random.below(2);
    let mut done = 0;
    let mut damaged = image.to_vec();
    if let Ok(program) = parse(image) {
        let mut tree = CodeTree::of(image, &program);
        done = random.below(count + 1);
        (0..done).for_each(|_| damage_tree(&mut tree, random));
        damaged = encode(&tree);
    }
    (done..count).for_each(|_| damage_bytes(&mut damaged, random));
    damaged
}

/// Damage that leaves kinds and lengths of records right, but for those of odd constants.
fn damage_tree(tree: &mut CodeTree, random: &mut Random) {
    match random.below(12) {
        0 => nest(tree, random),
        1 => add_codes(tree, random),
        2 => fill(tree, random),
        3 => set_numbers(tree, random),
        4 => set_table(tree, random),
        5 => add_name(tree, random),
        6 => add_capture(tree, random),
        7 => set_last_opcode(tree, random),
        8 => set_operand(tree, random),
        9 => set_opcode(tree, random),
        10 => add_constant(tree, random),
        _ => add_text(tree, random),
    }
}

fn damage_bytes(image: &mut Vec<u8>, random: &mut Random) {
    match random.below(10) {
        0 => flip_bit(image, random),
        1 | 2 => set_length(image, random),
        3 => set_kind(image, random),
        4 => set_code_number(image, random),
        5 => swap_records(image, random),
        6 => cut(image, random),
        7 => add_bytes(image, random),
        8 => remove_byte(image, random),
        _ => insert_byte(image, random),
    }
}

/// The tree's outermost code or one inside it.
fn some_code<'a>(tree: &'a mut CodeTree, random: &mut Random) -> &'a mut CodeTree {
    if tree.const_codes.is_empty() || random.chance(1, 2) {
        return tree;
    }
    let at = random.below(tree.const_codes.len());
    some_code(&mut tree.const_codes[at], random)
}

/// A limit, or a number next to it.
fn near(limit: usize, random: &mut Random) -> usize {
    limit + *random.pick(&[0, 1, 1, 2]) - random.below(2).min(limit)
}

/// `Jump 0`, the smallest code.
fn smallest() -> CodeTree {
    CodeTree { opcodes: vec![(40, 0)], ..CodeTree::default() }
}

/// Adds codes nested to a depth near the limit.
fn nest(tree: &mut CodeTree, random: &mut Random) {
    let inner = near(MAX_DEPTH, random) - 1;
    let chain = (1..inner).fold(smallest(), |code, _| CodeTree { const_codes: vec![code], ..smallest() });
    let at = random.below(tree.const_codes.len() + 1);
    tree.const_codes.insert(at, chain);
}

fn code_count(code: &CodeTree) -> usize {
    1 + code.const_codes.iter().map(code_count).sum::<usize>()
}

/// Adds codes up to a number near the limit.
fn add_codes(tree: &mut CodeTree, random: &mut Random) {
    let missing = near(MAX_CODES, random).saturating_sub(code_count(tree));
    some_code(tree, random).const_codes.extend(vec![smallest(); missing]);
}

/// Adds bytes up to a size near the limit.
fn fill(tree: &mut CodeTree, random: &mut Random) {
    let size = encode(tree).len() + HEADER_BYTES;
    let missing = near(MAX_BYTES, random).saturating_sub(size);
    some_code(tree, random).constants.push(ConstantTree::Bytes(vec![0; missing]));
}

/// Sets the parameter count or the number of locals.
fn set_numbers(tree: &mut CodeTree, random: &mut Random) {
    let code = some_code(tree, random);
    match random.below(3) {
        0 => code.params = near(MAX_PARAMS, random) as u16,
        1 => code.locals = near(MAX_LOCALS, random) as u16,
        _ => code.locals = 0,
    }
}

/// Brings a table to a length near its limit, or empties it.
fn set_table(tree: &mut CodeTree, random: &mut Random) {
    let code = some_code(tree, random);
    match random.below(5) {
        0 => code.globals.resize(near(MAX_GLOBALS, random), 255),
        1 => code.captures.resize(near(MAX_CAPTURES, random), (0, 0)),
        2 => code.constants.resize(near(MAX_CONSTANTS, random), ConstantTree::Null),
        3 => code.opcodes.resize(near(MAX_OPCODES, random), (37, 0)),
        _ => match random.below(4) {
            0 => code.globals.clear(),
            1 => code.captures.clear(),
            2 => code.constants.clear(),
            _ => code.opcodes.clear(),
        },
    }
}

fn add_name(tree: &mut CodeTree, random: &mut Random) {
    let name = *random.pick(&[0, 255, 256, 257, 65_535]);
    some_code(tree, random).globals.push(name);
}

/// Adds a capture to a code inside the outermost, if there is one.
fn add_capture(tree: &mut CodeTree, random: &mut Random) {
    let (locals, upvalues) = (tree.locals, tree.captures.len() as u16);
    let kind = *random.pick(&[0, 1, 2, 256]);
    let len = if kind == 0 { locals } else { upvalues };
    let index = *random.pick(&[0, len.saturating_sub(1), len, 65_535]);
    let code = if tree.const_codes.is_empty() { tree } else { &mut tree.const_codes[0] };
    code.captures.push((kind, index));
}

/// Replaces, drops or adds a last opcode.
fn set_last_opcode(tree: &mut CodeTree, random: &mut Random) {
    let code = some_code(tree, random);
    let opcode = (*random.pick(&[0, 36, 37, 38, 39, 40, 41, 42, 43, 44, 49, 51]), 0);
    match random.below(3) {
        0 => drop(code.opcodes.pop()),
        1 => code.opcodes.push(opcode),
        _ => {
            code.opcodes.pop();
            code.opcodes.push(opcode);
        }
    }
}

/// Sets an operand to the last one of its table, or past it.
fn set_operand(tree: &mut CodeTree, random: &mut Random) {
    let code = some_code(tree, random);
    let tables = [3, 4, 5, 6, 7, 8, 30, 0, 37];
    if code.opcodes.is_empty() || random.chance(1, 2) {
        code.opcodes.insert(0, (*random.pick(&tables), 0));
    }
    let at = random.below(code.opcodes.len().min(4));
    let len = match operand_kind(code.opcodes[at].0) {
        Some(OperandKind::Index(Table::Locals)) => code.locals.into(),
        Some(OperandKind::Index(Table::Globals)) => code.globals.len(),
        Some(OperandKind::Index(Table::Captures)) => code.captures.len(),
        Some(OperandKind::Index(Table::Constants)) => code.constants.len(),
        Some(OperandKind::Target) => code.opcodes.len(),
        Some(OperandKind::Type) => 10,
        Some(OperandKind::Count | OperandKind::Unused) | None => 1,
    } as u32;
    code.opcodes[at].1 = *random.pick(&[len.saturating_sub(1), len, len + 1, len + 65_536, u32::MAX]);
}

fn set_opcode(tree: &mut CodeTree, random: &mut Random) {
    let code = some_code(tree, random);
    let low = random.below(64) as u16;
    let opcode = *random.pick(&[low, low, 52, 255, 256, 65_535]);
    let at = random.below(code.opcodes.len() + 1);
    code.opcodes.insert(at, (opcode, 0));
}

/// Adds a constant of a kind, a size or a number near a right one.
fn add_constant(tree: &mut CodeTree, random: &mut Random) {
    let code = some_code(tree, random);
    let sizes = [0, 1, 2, 3, 7, 8, 9];
    let constant = match random.below(5) {
        0 => record(kind::BOOL, &[*random.pick(&[0, 1, 2, 255])]),
        1 => ConstantTree::Function(near(code.const_codes.len(), random) as u16),
        2 => record(random.below(12) as u16 + 14, &vec![0; *random.pick(&sizes)]),
        3 => ConstantTree::UserEffect {
            params: near(MAX_PARAMS, random) as u16,
            variadic: random.chance(1, 2),
            name: text(random),
        },
        _ => odd_effect(random),
    };
    let at = random.below(code.constants.len() + 1);
    code.constants.insert(at, constant);
}

fn record(kind: u16, body: &[u8]) -> ConstantTree {
    ConstantTree::Record { kind, body: body.to_vec() }
}

/// An effect of any number near 3 and of any size up to 8, or with an odd variadic mark.
fn odd_effect(random: &mut Random) -> ConstantTree {
    let number = *random.pick(&[0, 1, 2, 3, 3, 3, 4, 5]);
    let high = *random.pick(&[0, 0, 0, 1]);
    let variadic = *random.pick(&[0, 1, 2]);
    let body = [number, high, 0, 0, variadic, 0, b'e', b'f'];
    record(kind::EFFECT, &body[..*random.pick(&[0, 1, 2, 2, 3, 5, 6, 7, 8])])
}

/// Adds a Str of odd text.
fn add_text(tree: &mut CodeTree, random: &mut Random) {
    let text = ConstantTree::Str(text(random));
    some_code(tree, random).constants.push(text);
}

/// UTF-8 at its edges: the least and greatest characters of each length.
#[rustfmt::skip]
const TEXTS: [&str; 13] = [
    "", "\0", "\u{7f}", "\u{80}", "\u{7ff}", "\u{800}", "\u{d7ff}", "\u{e000}", "\u{feff}", "\u{fdd0}", "\u{ffff}",
    "\u{10000}", "\u{10ffff}",
];

/// Just outside: lone and cut sequences, overlong ones, surrogates, past U+10FFFF.
#[rustfmt::skip]
const NO_TEXTS: [&[u8]; 24] = [
    &[0x80], &[0xbf], &[0xc2], &[0xc2, 0x41], &[0xe1, 0x80], &[0xe1, 0x80, 0x41], &[0xef, 0xbf], &[0xf0, 0x90, 0x80],
    &[0xf3, 0x80], &[0xf4], &[0xc0, 0x80], &[0xc1, 0xbf], &[0xe0, 0x80, 0x80], &[0xe0, 0x9f, 0xbf],
    &[0xf0, 0x80, 0x80, 0x80], &[0xf0, 0x8f, 0xbf, 0xbf], &[0xed, 0xa0, 0x80], &[0xed, 0xbf, 0xbf],
    &[0xf4, 0x90, 0x80, 0x80], &[0xf5, 0x80, 0x80, 0x80], &[0xf8, 0x88, 0x80, 0x80, 0x80], &[0xfe], &[0xff],
    &[0xc2, 0xc2],
];

fn text(random: &mut Random) -> Vec<u8> {
    let middle = if random.chance(1, 3) { random.pick(&TEXTS).as_bytes() } else { random.pick(&NO_TEXTS) };
    let [front, back] = [0, 0].map(|_: u8| vec![b'a'; random.below(3)]);
    [&front, middle, &back].concat()
}

/// A record's header in an image.
struct Place {
    at: usize,
    kind: u16,
    len: usize,
}

impl Place {
    fn end(&self) -> usize {
        self.at + HEADER_BYTES + self.len
    }
}

/// The records of an image as far as they can be made out.
fn places(image: &[u8]) -> Vec<Place> {
    let mut places = Vec::new();
    scan(image, 0, image.len(), &mut places);
    places
}

fn scan(image: &[u8], start: usize, end: usize, places: &mut Vec<Place>) {
    let mut at = start;
    while end - at >= HEADER_BYTES {
        let len = u32::from_le_bytes([image[at], image[at + 1], image[at + 2], image[at + 3]]) as usize;
        let kind = u16::from_le_bytes([image[at + 4], image[at + 5]]);
        let body = at + HEADER_BYTES;
        places.push(Place { at, kind, len });
        if len > end - body {
            return;
        }
        match kind {
            kind::CODE if len >= 8 => scan(image, body + 8, body + len, places),
            kind::CONSTANTS => scan(image, body, body + len, places),
            _ => (),
        }
        at = body + len;
    }
}

fn flip_bit(image: &mut [u8], random: &mut Random) {
    if !image.is_empty() {
        let at = random.below(image.len());
        image[at] ^= 1 << random.below(8);
    }
}

/// Sets a record's length to a near one, or to one near 2^32.
fn set_length(image: &mut [u8], random: &mut Random) {
    let places = places(image);
    if places.is_empty() {
        return;
    }
    let Place { at, len, .. } = *random.pick(&places);
    let len = len as u32;
    let step = *random.pick(&[1, 2, 4, 6, 8, 12]);
    let far = u32::MAX - random.below(8) as u32;
    let lengths = [len.wrapping_add(step), len.wrapping_sub(step), 0, far, 1 << 31, len.wrapping_add(65_536)];
    image[at..at + 4].copy_from_slice(&random.pick(&lengths).to_le_bytes());
}

fn set_kind(image: &mut [u8], random: &mut Random) {
    let places = places(image);
    if places.is_empty() {
        return;
    }
    let Place { at, kind, .. } = *random.pick(&places);
    let kinds = [kind.wrapping_add(1), kind.wrapping_sub(1), kind ^ 256, kind::CODE, kind::STR, kind::BYTES];
    image[at + 4..at + 6].copy_from_slice(&random.pick(&kinds).to_le_bytes());
}

/// Sets one of a code's four numbers.
fn set_code_number(image: &mut [u8], random: &mut Random) {
    let codes: Vec<Place> = places(image).into_iter().filter(|place| place.kind == kind::CODE).collect();
    if codes.is_empty() {
        return;
    }
    let at = random.pick(&codes).at + HEADER_BYTES + 2 * random.below(4);
    let number: u16 = *random.pick(&[0, 1, 2, 32, 33, 256, 257, 65_535]);
    if at + 2 <= image.len() {
        image[at..at + 2].copy_from_slice(&number.to_le_bytes());
    }
}

/// Swaps a record with the one behind it.
fn swap_records(image: &mut [u8], random: &mut Random) {
    let places = places(image);
    let behind = |first: &Place| places.iter().find(|second| second.at == first.end() && second.end() <= image.len());
    let pairs: Vec<(usize, usize, usize)> =
        places.iter().filter_map(|first| behind(first).map(|second| (first.at, second.at, second.end()))).collect();
    if !pairs.is_empty() {
        let (start, middle, end) = *random.pick(&pairs);
        image[start..end].rotate_left(middle - start);
    }
}

/// Cuts bytes off, or all but a few.
fn cut(image: &mut Vec<u8>, random: &mut Random) {
    let less = image.len().saturating_sub(1 + random.below(8));
    image.truncate(if random.chance(1, 2) { random.below(8) } else { less });
}

fn add_bytes(image: &mut Vec<u8>, random: &mut Random) {
    let byte = *random.pick(&[0, 1, 255]);
    image.extend(vec![byte; 1 + random.below(12)]);
}

fn remove_byte(image: &mut Vec<u8>, random: &mut Random) {
    if !image.is_empty() {
        image.remove(random.below(image.len()));
    }
}

fn insert_byte(image: &mut Vec<u8>, random: &mut Random) {
    let at = random.below(image.len() + 1);
    image.insert(at, random.next_u64() as u8);
}
