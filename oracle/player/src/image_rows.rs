//! Images with the answers of the reader in `image.rs`, as the program `images_replay` of our own reads and writes them: each limit of the image one below,
//! at and one above, every edge of UTF-8, every opcode number, and damaged images by seed.

use crate::{
    damage::damage,
    generate,
    image::{
        self, MAX_BYTES, MAX_CAPTURES, MAX_CODES, MAX_CONSTANTS, MAX_DEPTH, MAX_GLOBALS, MAX_LOCALS, MAX_OPCODES,
        MAX_PARAMS,
    },
    random::Random,
    tree::{CodeTree, ConstantTree, encode},
};

const RETURN: u16 = 37;
const JUMP: u16 = 40;
/// Damaged images longer than this are left to the comparison at full scale.
const SHORT: usize = 2_048;
/// So many damaged images of each answer are in the list.
const EACH: usize = 80;

/// The fixed list of images.
pub fn images() -> Vec<Vec<u8>> {
    let mut images = limits();
    images.extend(texts().into_iter().map(|text| encode(&with_constant(ConstantTree::Str(text)))));
    images.extend((0..64).flat_map(|opcode| [0, 1].map(|operand| encode(&with_opcode(opcode, operand)))));
    let mut counts = [0; 5];
    let mut wanted = |image: &Vec<u8>| {
        let count = &mut counts[refusal(image) as usize];
        *count += 1;
        *count <= EACH
    };
    images.extend((1..).map(damaged_image).filter(|image| image.len() <= SHORT).filter(&mut wanted).take(5 * EACH));
    images
}

/// The number of the image's refusal, 0 for an accepted one.
pub fn refusal(image: &[u8]) -> u32 {
    image::parse(image).err().unwrap_or(0)
}

/// The damaged image of a seed.
pub fn damaged_image(seed: u64) -> Vec<u8> {
    let mut random = Random::new(seed);
    let (own, _) = generate::image(&mut random);
    damage(&own, &mut random)
}

/// The image behind its length.
pub fn question(image: &[u8]) -> Vec<u8> {
    let len = u32::try_from(image.len()).expect("an image is shorter than 2^32 bytes");
    [&len.to_le_bytes()[..], image].concat()
}

/// A line with the number of the refusal, 0 for an accepted image.
pub fn answer(image: &[u8]) -> Vec<u8> {
    format!("{}\n", refusal(image)).into_bytes()
}

/// `Jump 0`, the smallest code.
fn smallest() -> CodeTree {
    CodeTree { opcodes: vec![(JUMP, 0)], ..CodeTree::default() }
}

fn with_constant(constant: ConstantTree) -> CodeTree {
    CodeTree { constants: vec![constant], ..smallest() }
}

/// One of each table, and this opcode before the last.
fn with_opcode(opcode: u16, operand: u32) -> CodeTree {
    CodeTree {
        locals: 1,
        opcodes: vec![(opcode, operand), (RETURN, 0)],
        globals: vec![0],
        captures: vec![(0, 0)],
        constants: vec![ConstantTree::Null],
        ..CodeTree::default()
    }
}

fn nest(depth: usize) -> CodeTree {
    (1..depth).fold(smallest(), |inner, _| CodeTree { const_codes: vec![inner], ..smallest() })
}

/// An image of this many bytes.
fn sized(bytes: usize) -> Vec<u8> {
    let empty = encode(&with_constant(ConstantTree::Bytes(Vec::new()))).len();
    encode(&with_constant(ConstantTree::Bytes(vec![0; bytes - empty])))
}

fn effect(params: usize) -> ConstantTree {
    ConstantTree::UserEffect { params: params as u16, variadic: false, name: Vec::new() }
}

/// One below, at and one above each limit.
fn limits() -> Vec<Vec<u8>> {
    let around = |limit: usize| limit - 1..=limit + 1;
    let mut images: Vec<Vec<u8>> = (0..8).map(|len| vec![0; len]).collect();
    images.extend(around(MAX_BYTES).map(sized));
    let mut trees: Vec<CodeTree> = around(MAX_DEPTH).map(nest).collect();
    trees.extend(around(MAX_CODES).map(|n| CodeTree { const_codes: vec![smallest(); n - 1], ..smallest() }));
    trees.extend((0..=2).chain(around(MAX_OPCODES)).map(|n| CodeTree { opcodes: vec![(RETURN, 0); n], ..smallest() }));
    trees.extend(around(MAX_LOCALS).map(|n| CodeTree { locals: n as u16, ..smallest() }));
    trees.extend(around(MAX_CONSTANTS).map(|n| CodeTree { constants: vec![ConstantTree::Null; n], ..smallest() }));
    trees.extend(around(MAX_GLOBALS).map(|n| CodeTree { globals: vec![255; n], ..smallest() }));
    trees.extend(around(255).map(|name| CodeTree { globals: vec![name as u16], ..smallest() }));
    trees.extend(around(MAX_CAPTURES).map(|n| CodeTree { captures: vec![(9, 9); n], ..smallest() }));
    trees.extend(around(MAX_PARAMS).map(|n| CodeTree { params: n as u16, ..smallest() }));
    trees.extend(around(MAX_PARAMS).map(|n| with_constant(effect(n))));
    images.extend(trees.iter().map(encode));
    images
}

/// Every first byte, with tails at and around the edges of RFC 3629's table, whole and cut.
fn texts() -> Vec<Vec<u8>> {
    let firsts = [
        0x00, 0x7f, 0x80, 0xbf, 0xc0, 0xc1, 0xc2, 0xdf, 0xe0, 0xe1, 0xec, 0xed, 0xee, 0xef, 0xf0, 0xf1, 0xf3, 0xf4,
        0xf5, 0xff,
    ];
    let seconds = [0x7f, 0x80, 0x8f, 0x90, 0x9f, 0xa0, 0xbf, 0xc0];
    let mut texts = vec![Vec::new()];
    for first in firsts {
        texts.push(vec![first]);
        for second in seconds {
            texts.extend(
                [&[][..], &[0x80], &[0x80, 0xbf], &[0x80, 0xbf, 0x80], &[0x7f, 0x80]]
                    .map(|tail| [&[first, second], tail].concat()),
            );
        }
    }
    texts
}
