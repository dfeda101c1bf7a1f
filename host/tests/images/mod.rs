//! Images for tests, written record by record.

#![allow(dead_code)] // each test file uses its part

/// Numbers of opcodes.
pub mod op {
    pub const POP: u16 = 0;
    pub const SWAP: u16 = 2;
    pub const LOAD_LOCAL: u16 = 3;
    pub const LOAD_GLOBAL: u16 = 4;
    pub const LOAD_CONST: u16 = 6;
    pub const STORE_LOCAL: u16 = 7;
    pub const STORE_GLOBAL: u16 = 8;
    pub const BUILD_LIST: u16 = 10;
    pub const NEG: u16 = 17;
    pub const NOT: u16 = 18;
    pub const ADD: u16 = 19;
    pub const DIV: u16 = 22;
    pub const CALL: u16 = 36;
    pub const RETURN: u16 = 37;
    pub const JUMP: u16 = 40;
    pub const REGISTER_HANDLER: u16 = 49;
    pub const CHECK_EFFECT: u16 = 50;
}

/// A code; what is left out is none.
#[derive(Default)]
pub struct Code<'a> {
    pub params: u16,
    pub variadic: bool,
    pub locals: u16,
    pub opcodes: &'a [(u16, u32)],
    pub globals: &'a [u16],
    pub captures: &'a [(u16, u16)],
    pub constants: &'a [Vec<u8>],
    pub codes: &'a [Code<'a>],
}

impl Code<'_> {
    /// The image, if this code is the outermost.
    pub fn image(&self) -> Vec<u8> {
        let mut body = Vec::new();
        for number in [self.params, self.variadic.into(), self.locals, 0] {
            body.extend(number.to_le_bytes());
        }
        let opcodes = self
            .opcodes
            .iter()
            .flat_map(|(number, operand)| [&number.to_le_bytes()[..], &operand.to_le_bytes()].concat());
        body.extend(record(2, &opcodes.collect::<Vec<u8>>()));
        body.extend(record(3, &self.globals.iter().flat_map(|name| name.to_le_bytes()).collect::<Vec<u8>>()));
        let captures =
            self.captures.iter().flat_map(|(kind, index)| [kind.to_le_bytes(), index.to_le_bytes()].concat());
        body.extend(record(4, &captures.collect::<Vec<u8>>()));
        body.extend(record(5, &self.constants.concat()));
        self.codes.iter().for_each(|code| body.extend(code.image()));
        record(1, &body)
    }
}

/// Body length, kind, body.
pub fn record(kind: u16, body: &[u8]) -> Vec<u8> {
    [&(body.len() as u32).to_le_bytes()[..], &kind.to_le_bytes(), body].concat()
}

pub fn null() -> Vec<u8> {
    record(16, &[])
}

pub fn int(number: i64) -> Vec<u8> {
    record(18, &number.to_le_bytes())
}

pub fn text(text: &str) -> Vec<u8> {
    record(20, text.as_bytes())
}

pub fn bytes(bytes: &[u8]) -> Vec<u8> {
    record(21, bytes)
}

pub fn function(index: u16) -> Vec<u8> {
    record(22, &index.to_le_bytes())
}

pub fn builtin(number: u16) -> Vec<u8> {
    record(23, &number.to_le_bytes())
}

pub fn effect(params: u16, name: &str) -> Vec<u8> {
    let [a, b] = params.to_le_bytes();
    record(23, &[&[3, 0, a, b, 0, 0], name.as_bytes()].concat())
}

/// Loads a null and returns it.
pub fn null_return() -> Vec<u8> {
    Code { opcodes: &[(op::LOAD_CONST, 0), (op::RETURN, 0)], constants: &[null()], ..Code::default() }.image()
}

/// Returns its one argument; constants: a Str, a Bytes, the effects `e()` and `f(1)`, Yield, and 16 more effects.
pub fn identity() -> Vec<u8> {
    let mut constants = vec![text("via"), bytes(&[0, 255]), effect(0, "e"), effect(1, "f"), builtin(0)];
    constants.extend((0..16).map(|number| effect(0, &format!("e{number}"))));
    Code { params: 1, opcodes: &[(op::RETURN, 0)], constants: &constants, ..Code::default() }.image()
}
