//! Small programs that several tests use.
#![allow(dead_code)]

use player::{
    image::{self, operand_kind},
    random::Random,
    tree::{CodeTree, ConstantTree, encode},
};

pub const RETURN: u16 = 37;
pub const JUMP: u16 = 40;

/// `Jump 0`, the smallest code.
pub fn smallest() -> CodeTree {
    CodeTree { opcodes: vec![(JUMP, 0)], ..CodeTree::default() }
}

/// The smallest code with one of each table.
pub fn one_of_each() -> CodeTree {
    CodeTree {
        locals: 1,
        opcodes: vec![(JUMP, 0)],
        globals: vec![0],
        captures: vec![(0, 0)],
        constants: vec![ConstantTree::Null],
        ..CodeTree::default()
    }
}

pub fn with_constant(constant: ConstantTree) -> CodeTree {
    CodeTree { constants: vec![constant], ..smallest() }
}

pub fn with_codes(const_codes: Vec<CodeTree>) -> CodeTree {
    CodeTree { const_codes, ..smallest() }
}

/// Codes nested to this depth.
pub fn nest(depth: usize) -> CodeTree {
    (1..depth).fold(smallest(), |inner, _| with_codes(vec![inner]))
}

/// 0 if accepted, else the refusal.
pub fn answer(image: &[u8]) -> u32 {
    image::parse(image).err().unwrap_or(0)
}

pub fn answer_of(tree: &CodeTree) -> u32 {
    answer(&encode(tree))
}

/// A program that is accepted.
pub fn random_program(random: &mut Random) -> CodeTree {
    random_code(random, None, 3)
}

fn random_code(random: &mut Random, enclosing: Option<&CodeTree>, depth_left: usize) -> CodeTree {
    let mut code = CodeTree {
        params: random.below(33) as u16,
        variadic: random.chance(1, 3),
        locals: random.below(5) as u16,
        stack_size: random.next_u64() as u16,
        globals: (0..random.below(4)).map(|_| random.below(256) as u16).collect(),
        captures: (0..random.below(4)).filter_map(|_| random_capture(random, enclosing)).collect(),
        ..CodeTree::default()
    };
    let count = if depth_left == 0 { 0 } else { random.below(4) };
    code.const_codes = (0..count).map(|_| random_code(random, Some(&code), depth_left - 1)).collect();
    code.constants = (0..random.below(8)).map(|_| random_constant(random, count)).collect();
    code.opcodes = random_opcodes(random, &code);
    code
}

fn random_capture(random: &mut Random, enclosing: Option<&CodeTree>) -> Option<(u16, u16)> {
    let kind = random.below(2) as u16;
    let Some(enclosing) = enclosing else {
        return Some((random.below(4) as u16, random.next_u64() as u16));
    };
    let len = if kind == 0 { enclosing.locals.into() } else { enclosing.captures.len() };
    (len > 0).then(|| (kind, random.below(len) as u16))
}

fn random_constant(random: &mut Random, const_codes: usize) -> ConstantTree {
    let names: [&str; 5] = ["", "e", "two words", "\u{fc}n\"i\\\n\u{10ffff}\u{7f}\0", "fn"];
    let name = random.pick(&names).as_bytes().to_vec();
    match random.below(9) {
        0 => ConstantTree::Null,
        1 => ConstantTree::Bool(random.chance(1, 2)),
        2 => ConstantTree::Int(*random.pick(&[0, 1, -1, i64::MIN, i64::MAX])),
        3 => ConstantTree::Float(random.next_u64()),
        4 => ConstantTree::Str(name),
        5 => ConstantTree::Bytes((0..random.below(4)).map(|_| random.next_u64() as u8).collect()),
        6 if const_codes > 0 => ConstantTree::Function(random.below(const_codes) as u16),
        7 => ConstantTree::BuiltinEffect(random.below(3) as u16),
        _ => ConstantTree::UserEffect { params: random.below(33) as u16, variadic: random.chance(1, 2), name },
    }
}

fn random_opcodes(random: &mut Random, code: &CodeTree) -> Vec<(u16, u32)> {
    let count = 1 + random.below(20);
    let mut opcodes = Vec::new();
    while opcodes.len() + 1 < count {
        let opcode = random.below(52) as u16;
        let len = table_len(code, opcode, count);
        if len > 0 {
            opcodes.push((opcode, (random.next_u64() % len) as u32));
        }
        if random.chance(1, 8) {
            let last = opcodes.last().copied();
            opcodes.extend(last.filter(|_| opcodes.len() + 1 < count));
        }
    }
    opcodes.push(if random.chance(1, 2) { (RETURN, 0) } else { (JUMP, random.below(count) as u32) });
    opcodes
}

/// How many operands the opcode may have.
pub fn table_len(code: &CodeTree, opcode: u16, opcodes: usize) -> u64 {
    use player::image::{OperandKind::*, Table};
    match operand_kind(opcode) {
        None => 0,
        Some(Unused) => 1,
        Some(Count) => 1 << 32,
        Some(Type) => 10,
        Some(Index(Table::Locals)) => code.locals.into(),
        Some(Index(Table::Globals)) => code.globals.len() as u64,
        Some(Index(Table::Captures)) => code.captures.len() as u64,
        Some(Index(Table::Constants)) => code.constants.len() as u64,
        Some(Target) => opcodes as u64,
    }
}
