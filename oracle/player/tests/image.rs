//! Each refusal of an image, at its limits and in its order.

mod programs;

use player::{
    image::{Constant, MAX_BYTES, Part, kind, parse},
    tree::{CodeTree, ConstantTree, encode, record},
};
use programs::{JUMP, RETURN, answer, answer_of, nest, one_of_each, smallest, table_len, with_codes, with_constant};

fn with_record(kind: u16, body: &[u8]) -> CodeTree {
    with_constant(ConstantTree::Record { kind, body: body.to_vec() })
}

fn effect(params: u16, variadic: bool, name: &[u8]) -> ConstantTree {
    ConstantTree::UserEffect { params, variadic, name: name.to_vec() }
}

fn plus(image: &[u8], tail: &[u8]) -> Vec<u8> {
    [image, tail].concat()
}

/// A code record of the smallest code's tables with these bytes behind them.
fn code_with_tail(tail: &[u8]) -> Vec<u8> {
    record(kind::CODE, &plus(&encode(&smallest())[6..], tail))
}

/// A code record around this record, `times` times.
fn wrap(inner: Vec<u8>, times: usize) -> Vec<u8> {
    (0..times).fold(inner, |inner, _| code_with_tail(&inner))
}

/// The header of a code record whose body is 2^32 - 1 bytes long.
const OVERLONG_CODE: [u8; 6] = [255, 255, 255, 255, 1, 0];

#[test]
fn x50_sizes() {
    assert_eq!(answer(&[]), 1);
    assert_eq!(answer(&[0; 5]), 1);
    assert_eq!(answer(&[0, 0, 0, 0, 1, 0]), 2);
    assert_eq!(encode(&smallest()).len(), 44);
    assert_eq!(answer_of(&smallest()), 0);
    let x1 = CodeTree { opcodes: vec![(6, 0), (RETURN, 0)], ..with_constant(ConstantTree::Null) };
    assert_eq!((encode(&x1).len(), answer_of(&x1)), (56, 0));
    let with_bytes = |len: usize| {
        let mut tree = x1.clone();
        tree.constants.push(ConstantTree::Bytes(vec![0xff; len]));
        encode(&tree)
    };
    assert_eq!((with_bytes(65_474).len(), answer(&with_bytes(65_474))), (MAX_BYTES, 0));
    assert_eq!((with_bytes(65_475).len(), answer(&with_bytes(65_475))), (MAX_BYTES + 1, 1));
}

#[test]
fn x50_records() {
    let mut longer = encode(&smallest());
    longer[0] += 1;
    assert_eq!(answer(&longer), 2);
    assert_eq!(answer(&plus(&encode(&smallest()), &[0])), 2);
    assert_eq!(answer(&plus(&encode(&nest(9)), &[0])), 4);
    let bad_text = encode(&with_constant(ConstantTree::Str(vec![0x80])));
    assert_eq!(answer(&bad_text), 3);
    assert_eq!(answer(&plus(&bad_text, &[0])), 2);
    let mut codes = encode(&with_codes(vec![smallest(); 255]));
    codes.extend(OVERLONG_CODE);
    let len = codes.len() as u32 - 6;
    codes[..4].copy_from_slice(&len.to_le_bytes());
    assert_eq!(answer(&codes), 4);
}

#[test]
fn x50_constants() {
    assert_eq!(answer_of(&with_record(17, &[2])), 3);
    assert_eq!(answer_of(&with_record(17, &[0, 0])), 2);
    assert_eq!(answer_of(&with_record(23, &[4, 0, 1, 2, 3, 4, 5])), 3);
    assert_eq!(answer_of(&with_record(23, &[1, 0, 0])), 2);
    assert_eq!(answer_of(&with_record(23, &[1])), 2);
}

#[test]
fn x50_opcodes() {
    let code = |opcodes: &[(u16, u32)]| CodeTree { opcodes: opcodes.to_vec(), ..CodeTree::default() };
    assert_eq!(answer_of(&code(&[(38, 0)])), 3);
    assert_eq!(answer_of(&code(&[(0, 1), (RETURN, 0)])), 3);
    assert_eq!(answer_of(&code(&[(0, 0), (RETURN, 0)])), 0);
}

#[test]
fn p14_depth() {
    assert_eq!(answer_of(&nest(8)), 0);
    assert_eq!(answer_of(&nest(9)), 4);
}

#[test]
fn number_of_codes() {
    assert_eq!(answer_of(&with_codes(vec![smallest(); 255])), 0);
    assert_eq!(answer_of(&with_codes(vec![smallest(); 256])), 4);
    let two_levels = |last: usize| with_codes(vec![nest(6), with_codes(vec![smallest(); last])]);
    assert_eq!(answer_of(&two_levels(248)), 0);
    assert_eq!(answer_of(&two_levels(249)), 4);
}

#[test]
fn limits_of_one_code() {
    let jumps = |count| CodeTree { opcodes: vec![(JUMP, 0); count], ..CodeTree::default() };
    let limits = [(0, 3), (1, 0), (4_095, 0), (4_096, 0), (4_097, 3)];
    assert_eq!(limits.map(|(count, _)| answer_of(&jumps(count))), limits.map(|(_, answer)| answer));
    let at_limit = |make: &dyn Fn(usize) -> CodeTree, limit: usize| {
        let answers = [limit - 1, limit, limit + 1].map(|count| answer_of(&make(count)));
        assert_eq!(answers, [0, 0, 3]);
        let inside = [limit, limit + 1].map(|count| answer_of(&with_codes(vec![make(count)])));
        assert_eq!(inside, [0, 3]);
    };
    at_limit(&|count| CodeTree { locals: count as u16, ..smallest() }, 256);
    at_limit(&|count| CodeTree { params: count as u16, ..smallest() }, 32);
    at_limit(&|count| CodeTree { globals: vec![255; count], ..smallest() }, 256);
    at_limit(&|count| CodeTree { constants: vec![ConstantTree::Null; count], ..smallest() }, 1_024);
    at_limit(&|count| with_constant(effect(count as u16, true, b"e")), 32);
}

#[test]
fn limit_of_captures() {
    let captures = |count| CodeTree { locals: 1, captures: vec![(0, 0); count], ..smallest() };
    let inside = |count| CodeTree { locals: 1, ..with_codes(vec![captures(count)]) };
    assert_eq!([255, 256, 257].map(|count| answer_of(&captures(count))), [0, 0, 3]);
    assert_eq!([255, 256, 257].map(|count| answer_of(&inside(count))), [0, 0, 3]);
}

#[test]
fn variadic_is_0_or_1() {
    for (value, expected) in [(0, 0), (1, 0), (2, 3), (256, 3), (65_535, 3)] {
        let value = u16::to_le_bytes(value);
        let mut image = encode(&smallest());
        image[8..10].copy_from_slice(&value);
        assert_eq!(answer(&image), expected);
        assert_eq!(answer_of(&with_record(23, &[3, 0, 0, 0, value[0], value[1]])), expected);
    }
}

#[test]
fn name_numbers() {
    let globals = |name| CodeTree { globals: vec![name], ..smallest() };
    assert_eq!([0, 255, 256, 65_535].map(|name| answer_of(&globals(name))), [0, 0, 3, 3]);
}

#[test]
fn captures_lie_in_the_enclosing_code() {
    let inner = |capture| CodeTree { locals: 9, captures: vec![capture], ..smallest() };
    let around =
        |capture| CodeTree { locals: 2, captures: vec![(7, 65_535)], const_codes: vec![inner(capture)], ..smallest() };
    let captures = [(0, 0), (0, 1), (0, 2), (1, 0), (1, 1), (2, 0), (256, 0), (65_535, 0)];
    assert_eq!(captures.map(|capture| answer_of(&around(capture))), [0, 0, 3, 0, 3, 3, 3, 3]);
}

#[test]
fn captures_lie_in_the_next_code_around() {
    let inner = |capture| CodeTree { captures: vec![capture], ..smallest() };
    let outermost = |middle, capture| CodeTree {
        locals: 1,
        captures: vec![(0, 0)],
        const_codes: vec![CodeTree { const_codes: vec![inner(capture)], ..middle }],
        ..smallest()
    };
    let middle = CodeTree { locals: 2, captures: vec![(0, 0), (1, 0)], ..smallest() };
    assert_eq!([(0, 1), (0, 2), (1, 1), (1, 2)].map(|it| answer_of(&outermost(middle.clone(), it))), [0, 3, 0, 3]);
    assert_eq!([(0, 0), (1, 0)].map(|it| answer_of(&outermost(smallest(), it))), [3, 3]);
}

#[test]
fn sizes_of_tables() {
    let sizes = [(kind::OPCODES, 6), (kind::GLOBALS, 2), (kind::CAPTURES, 4)];
    for (changed, item) in sizes {
        for len in 0..=2 * item {
            let table = |kind| match kind {
                _ if kind == changed => record(kind, &vec![0; len]),
                kind::OPCODES => record(kind, &[40, 0, 0, 0, 0, 0]),
                _ => record(kind, &[]),
            };
            let tables = [2, 3, 4, 5].map(table).concat();
            let fits = if len % item != 0 { 2 } else { u32::from(changed == kind::OPCODES) * 3 };
            assert_eq!(answer(&record(1, &plus(&[0; 8], &tables))), fits, "kind {changed}, {len} bytes");
        }
    }
}

#[test]
fn tables_stand_once_and_in_order() {
    let tables = [2, 3, 4, 5].map(|kind| record(kind, if kind == 2 { &[40, 0, 0, 0, 0, 0] } else { &[] }));
    let code = |order: &[usize]| {
        let body: Vec<u8> = order.iter().flat_map(|&at| tables[at].clone()).collect();
        answer(&record(1, &plus(&[0; 8], &body)))
    };
    assert_eq!(code(&[0, 1, 2, 3]), 0);
    for order in [&[1, 0, 2, 3][..], &[0, 2, 1, 3], &[0, 1, 3, 2], &[0, 1, 2], &[0, 1, 2, 3, 3], &[0, 0, 1, 2, 3], &[]]
    {
        assert_eq!(code(order), 2, "{order:?}");
    }
    assert_eq!([0, 7].map(|len| answer(&record(1, &vec![0; len]))), [2, 2]);
    assert_eq!([0, 2, 16, 22, 65_535].map(|kind| answer(&record(kind, &encode(&smallest())[6..]))), [2; 5]);
}

#[test]
fn sizes_of_constants() {
    for (kind, size) in [(16, 0), (17, 1), (18, 8), (19, 8), (22, 2)] {
        for len in 0..=9 {
            let right = if kind == 22 { 3 } else { 0 };
            let expected = if len == size { right } else { 2 };
            assert_eq!(answer_of(&with_record(kind, &vec![0; len])), expected, "kind {kind}, {len} bytes");
        }
    }
    for kind in [20, 21] {
        assert_eq!([0, 1, 500].map(|len| answer_of(&with_record(kind, &vec![b'a'; len]))), [0; 3]);
    }
    let kinds: Vec<u16> = (0..=300).filter(|&kind| answer_of(&with_record(kind, &[])) != 2).collect();
    assert_eq!(kinds, [16, 20, 21]);
}

#[test]
fn sizes_of_effects() {
    for number in 0..=5_u8 {
        for len in 0..=8_usize {
            let body = [number, 0, 0, 0, 0, 0, b'a', b'b'];
            let expected = match (number, len) {
                (_, 0..=1) => 2,
                (0..=2, 2) => 0,
                (0..=2, _) => 2,
                (3, 6..) => 0,
                (3, _) => 2,
                _ => 3,
            };
            assert_eq!(answer_of(&with_record(23, &body[..len])), expected, "effect {number}, {len} bytes");
        }
    }
    assert_eq!(answer_of(&with_record(23, &[0, 1])), 3);
}

#[test]
fn bool_bytes_and_function_indices() {
    let bools = (0..=255).filter(|&byte| answer_of(&with_record(17, &[byte])) == 0);
    assert_eq!(bools.collect::<Vec<u8>>(), [0, 1]);
    let function = |index, codes| CodeTree {
        constants: vec![ConstantTree::Function(index)],
        ..with_codes(vec![smallest(); codes])
    };
    let answers =
        [(0, 0), (0, 1), (1, 1), (1, 2), (65_535, 2)].map(|(index, codes)| answer_of(&function(index, codes)));
    assert_eq!(answers, [3, 0, 3, 0, 3]);
}

#[test]
fn every_opcode_number() {
    let left_out: Vec<u16> = [9].into_iter().chain(11..=16).chain(31..=35).chain([39]).collect();
    for opcode in (0..64).chain([255, 256, 296, 65_535]) {
        let first = CodeTree { opcodes: vec![(opcode, 0), (JUMP, 0)], ..one_of_each() };
        let taken = opcode < 52 && !left_out.contains(&opcode);
        assert_eq!(answer_of(&first), if taken { 0 } else { 3 }, "opcode {opcode}");
        let last = CodeTree { opcodes: vec![(opcode, 0)], ..one_of_each() };
        let ends = matches!(opcode, 37 | 40 | 41 | 42 | 43);
        assert_eq!(answer_of(&last), if ends { 0 } else { 3 }, "last opcode {opcode}");
    }
    assert_eq!(left_out.len(), 13);
}

#[test]
fn operands_at_the_end_of_their_table() {
    let code = CodeTree {
        locals: 2,
        globals: vec![1, 2, 3],
        captures: vec![(0, 0); 4],
        constants: vec![ConstantTree::Null; 5],
        ..smallest()
    };
    let lens = [(3, 2), (7, 2), (4, 3), (8, 3), (5, 4), (6, 5), (30, 10)];
    let known = lens.into_iter().chain((40..50).map(|opcode| (opcode, 7)));
    let unused = [0, 37].into_iter().chain(17..=29).map(|opcode| (opcode, 1));
    let counts = [1, 2, 10, 36, 38, 50, 51].map(|opcode| (opcode, 1 << 32));
    let mut seen = 0;
    for (opcode, len) in known.chain(unused).chain(counts) {
        let with = |operand: u64| {
            let mut opcodes = vec![(JUMP, 0); 7];
            opcodes[0] = (opcode, operand as u32);
            answer_of(&CodeTree { opcodes, ..code.clone() })
        };
        assert_eq!(table_len(&code, opcode, 7), len);
        assert_eq!((with(0), with(len - 1)), (0, 0), "opcode {opcode}");
        assert!(len == 1 << 32 || [len, len + 1, u32::MAX.into()].map(with) == [3; 3], "opcode {opcode}");
        seen += 1;
    }
    assert_eq!(seen, 39);
}

#[test]
fn operands_of_an_inner_code_lie_in_its_own_tables() {
    let load = |opcode| CodeTree { opcodes: vec![(opcode, 0), (JUMP, 0)], ..CodeTree::default() };
    for opcode in [3, 4, 5, 6, 7, 8] {
        let around = CodeTree { const_codes: vec![load(opcode)], ..one_of_each() };
        assert_eq!(answer_of(&around), 3);
    }
}

/// UTF-8 by the grammar of RFC 3629, chapter 4.
fn is_utf8(bytes: &[u8]) -> bool {
    let rest = match bytes {
        [] => return true,
        [0..=0x7f, rest @ ..] => rest,
        [0xc2..=0xdf, 0x80..=0xbf, rest @ ..] => rest,
        [0xe0, 0xa0..=0xbf, 0x80..=0xbf, rest @ ..] => rest,
        [0xe1..=0xec | 0xee..=0xef, 0x80..=0xbf, 0x80..=0xbf, rest @ ..] => rest,
        [0xed, 0x80..=0x9f, 0x80..=0xbf, rest @ ..] => rest,
        [0xf0, 0x90..=0xbf, 0x80..=0xbf, 0x80..=0xbf, rest @ ..] => rest,
        [0xf1..=0xf3, 0x80..=0xbf, 0x80..=0xbf, 0x80..=0xbf, rest @ ..] => rest,
        [0xf4, 0x80..=0x8f, 0x80..=0xbf, 0x80..=0xbf, rest @ ..] => rest,
        _ => return false,
    };
    is_utf8(rest)
}

fn assert_text(text: &[u8]) {
    let expected = if is_utf8(text) { 0 } else { 3 };
    assert_eq!(answer_of(&with_constant(ConstantTree::Str(text.to_vec()))), expected, "{text:02x?}");
    assert_eq!(answer_of(&with_constant(effect(0, false, text))), expected, "name {text:02x?}");
    assert_eq!(answer_of(&with_constant(ConstantTree::Bytes(text.to_vec()))), 0);
}

#[test]
fn text_of_one_and_two_bytes() {
    for first in 0..=255 {
        assert_text(&[first]);
        for second in 0..=255 {
            assert_text(&[first, second]);
        }
    }
}

#[test]
fn text_at_every_edge() {
    let edges = [
        0x00, 0x7f, 0x80, 0x8f, 0x90, 0x9f, 0xa0, 0xbf, 0xc0, 0xc1, 0xc2, 0xdf, 0xe0, 0xe1, 0xec, 0xed, 0xee, 0xef,
        0xf0, 0xf1, 0xf3, 0xf4, 0xf5, 0xff,
    ];
    for lead in edges.into_iter().filter(|&lead| lead >= 0xc0) {
        for [a, b, c] in edges.iter().flat_map(|&a| edges.map(|b| edges.map(|c| [a, b, c]))).flatten() {
            assert_text(&[lead, a, b]);
            assert_text(&[lead, a, b, c]);
        }
    }
    for text in ["\u{0}", "\u{feff}", "\u{ffff}", "\u{fdd0}", "\u{d7ff}\u{e000}", "\u{10ffff}", ""] {
        assert_text(text.as_bytes());
    }
}

#[test]
fn nesting_and_records_from_the_front() {
    let broken = record(kind::CODE, &[0; 7]);
    let inner_nest = encode(&nest(8));
    assert_eq!(answer(&code_with_tail(&plus(&inner_nest, &broken))), 4);
    assert_eq!(answer(&code_with_tail(&plus(&broken, &inner_nest))), 2);
    // The ninth record's own faults: too long, broken inside, no whole header, no code.
    assert_eq!(answer(&wrap(OVERLONG_CODE.to_vec(), 8)), 4);
    assert_eq!(answer(&wrap(broken.clone(), 8)), 4);
    assert_eq!(answer(&wrap(OVERLONG_CODE[..5].to_vec(), 8)), 2);
    assert_eq!(answer(&wrap(record(2, &[]), 8)), 2);
    assert_eq!(answer(&wrap(OVERLONG_CODE.to_vec(), 7)), 2);
    // The outermost runs past the image before the ninth record is met.
    let mut longer = encode(&nest(9));
    longer[0] += 1;
    assert_eq!(answer(&longer), 2);
}

#[test]
fn records_before_numbers() {
    let bad_number = CodeTree { params: 33, ..smallest() };
    let broken = record(kind::CODE, &[0; 7]);
    let both = |first: &[u8], second: &[u8]| answer(&code_with_tail(&plus(first, second)));
    assert_eq!(both(&encode(&bad_number), &encode(&smallest())), 3);
    assert_eq!(both(&encode(&bad_number), &broken), 2);
    assert_eq!(both(&broken, &encode(&bad_number)), 2);
    assert_eq!(both(&encode(&bad_number), &encode(&nest(8))), 4);
    assert_eq!(both(&encode(&nest(8)), &encode(&bad_number)), 4);
    let bool_then_size = CodeTree {
        constants: vec![
            ConstantTree::Record { kind: 17, body: vec![2] },
            ConstantTree::Record { kind: 16, body: vec![2] },
        ],
        ..smallest()
    };
    assert_eq!(answer_of(&bool_then_size), 2);
    let too_long = with_constant(ConstantTree::Str(vec![0x80; MAX_BYTES]));
    assert_eq!(answer_of(&too_long), 1);
}

#[test]
fn lengths_near_2_to_the_32() {
    let tree = CodeTree { const_codes: vec![one_of_each()], ..one_of_each() };
    let image = encode(&tree);
    // Headers: code, opcodes, globals, captures, constants, its null, inner code.
    for at in [0, 14, 26, 34, 44, 50, 56] {
        for len in (u32::MAX - 70_000..=u32::MAX).step_by(7).chain(u32::MAX - 64..=u32::MAX).chain([1 << 31]) {
            let mut damaged = image.clone();
            damaged[at..at + 4].copy_from_slice(&len.to_le_bytes());
            assert_eq!(answer(&damaged), 2, "length {len} at {at}");
        }
    }
    assert_eq!(answer(&image), 0);
}

#[test]
fn program_of_an_image() {
    let inner = CodeTree { captures: vec![(0, 1)], ..smallest() };
    let tree = CodeTree {
        params: 1,
        variadic: true,
        locals: 2,
        stack_size: 65_535,
        opcodes: vec![(6, 3), (RETURN, 0)],
        globals: vec![7, 7],
        captures: vec![(9, 8)],
        constants: vec![
            ConstantTree::Int(-7),
            ConstantTree::Float(1 << 63),
            ConstantTree::Str(b"text".to_vec()),
            ConstantTree::Function(1),
            ConstantTree::BuiltinEffect(2),
            effect(32, true, b"e"),
            ConstantTree::Bool(true),
        ],
        const_codes: vec![with_codes(vec![smallest()]), inner],
    };
    let image = encode(&tree);
    let program = parse(&image).expect("the image is accepted");
    let main = &program.codes[0];
    assert_eq!(
        program.codes.iter().map(|code| code.const_codes.clone()).collect::<Vec<_>>(),
        [vec![1, 3], vec![2], vec![], vec![]]
    );
    assert_eq!(main.opcodes, [(6, 3), (RETURN, 0)]);
    assert_eq!((main.params, main.variadic, main.locals, main.stack_size), (1, true, 2, 65_535));
    assert_eq!((main.globals.as_slice(), main.captures.as_slice()), (&[7, 7][..], &[(9, 8)][..]));
    assert_eq!(main.constants[0], Constant::Int(-7));
    assert_eq!(main.constants[2], Constant::Str(Part { start: 92, len: 4 }));
    assert_eq!(&image[92..96], b"text");
    assert_eq!(main.constants[6], Constant::Bool(true));
    assert_eq!(program.codes[3].captures, [(0, 1)]);
    assert_eq!(CodeTree::of(&image, &program), tree);
}
