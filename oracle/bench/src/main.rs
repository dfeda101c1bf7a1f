//! Reading of full images: our proved reader beside the oracle's, in one run, in nanoseconds for each byte of the image.

use std::{
    hint::black_box,
    time::{Duration, Instant},
};

use player::{
    image,
    image_rows::damaged_image,
    tree::{CodeTree, ConstantTree, encode},
};

unsafe extern "C" {
    /// The number of the image's refusal, 0 for none (crate `reader`).
    fn lucia_refusal(image: *const u8, len: usize) -> u32;
}

fn ours(image: &[u8]) -> u32 {
    // SAFETY: pointer and length are those of a slice that lives through the call; the function only reads it.
    unsafe { lucia_refusal(image.as_ptr(), image.len()) }
}

fn oracle(image: &[u8]) -> u32 {
    image::parse(image).err().unwrap_or(0)
}

/// The time of one call, the least of several rounds.
fn time(read: fn(&[u8]) -> u32, image: &[u8]) -> Duration {
    let calls = 200;
    let round = |_| {
        let begin = Instant::now();
        for _ in 0..calls {
            black_box(read(black_box(image)));
        }
        begin.elapsed() / calls
    };
    (0..7).map(round).min().unwrap_or_default()
}

const JUMP: (u16, u32) = (40, 0);
const FULL: usize = 65_536;

/// Codes side by side until the image is full.
fn full(code: &CodeTree) -> Vec<u8> {
    let outer = CodeTree { opcodes: vec![JUMP], ..CodeTree::default() };
    let room = FULL - encode(&outer).len();
    let codes = (room / encode(code).len()).min(255);
    encode(&CodeTree { const_codes: vec![code.clone(); codes], ..outer })
}

fn images() -> Vec<(&'static str, Vec<u8>)> {
    let code = |opcodes: Vec<(u16, u32)>, constants: Vec<ConstantTree>| {
        full(&CodeTree { opcodes, constants, ..CodeTree::default() })
    };
    let opcodes: Vec<(u16, u32)> = (0..1000).map(|n| [(6, 0), (1, 1), (19, 0), (0, 0)][n % 4]).chain([JUMP]).collect();
    let text = |text: &str| vec![ConstantTree::Str(text.repeat(2_000 / text.len()).into_bytes()); 30];
    let mixed = |n: usize| match n % 4 {
        0 => ConstantTree::Int(n as i64),
        1 => ConstantTree::Str(b"via_cost".to_vec()),
        2 => ConstantTree::UserEffect { params: 1, variadic: false, name: b"via_cost".to_vec() },
        _ => ConstantTree::Null,
    };
    let script = CodeTree {
        params: 2,
        locals: 4,
        opcodes: opcodes[..60].iter().copied().chain([JUMP]).collect(),
        globals: (0..8).collect(),
        constants: (0..12).map(mixed).collect(),
        ..CodeTree::default()
    };
    vec![
        ("script", full(&script)),
        ("opcodes", code(opcodes.clone(), vec![ConstantTree::Null])),
        ("constants", code(vec![JUMP], (0..200).map(mixed).collect())),
        ("small codes", code(vec![(6, 0), (37, 0)], vec![ConstantTree::Null])),
        ("ASCII text", code(vec![JUMP], text("a via costs ten for each layer. "))),
        ("other text", code(vec![JUMP], text("Durchkontaktierung für \u{20ac}10, \u{5c42}"))),
        ("bytes", code(vec![JUMP], vec![ConstantTree::Bytes(vec![0; 65_000])])),
    ]
}

fn main() {
    println!("{:<12} {:>7} {:>10} {:>10} {:>7}", "image", "bytes", "ours", "oracle", "ratio");
    for (name, image) in images() {
        assert_eq!((ours(&image), oracle(&image)), (0, 0), "{name} is accepted");
        let [ours, oracle] = [ours, oracle].map(|read| time(read, &image).as_nanos() as f64 / image.len() as f64);
        println!("{name:<12} {:>7} {ours:>7.3} ns {oracle:>7.3} ns {:>7.2}", image.len(), oracle / ours);
    }
    let count = std::env::args().nth(1).map_or(0, |count| count.parse().expect("a number of images"));
    let differing = (1..=count).find(|&seed| {
        let image = damaged_image(seed);
        ours(&image) != oracle(&image)
    });
    match differing {
        Some(seed) => panic!("the image of seed {seed} gets two answers"),
        None => println!("{count} damaged images: no difference"),
    }
}
