//! A program as a tree of codes, from which the assembler and the generator make images.

use crate::image::{Code, Constant, HEADER_BYTES, Part, Program, kind};

/// A code with the codes in it; its numbers may break the rules of the image.
#[derive(Clone, PartialEq, Eq, Debug, Default)]
pub struct CodeTree {
    pub params: u16,
    pub variadic: bool,
    pub locals: u16,
    pub stack_size: u16,
    /// Number and operand.
    pub opcodes: Vec<(u16, u32)>,
    /// Name numbers.
    pub globals: Vec<u16>,
    /// 0 local or 1 upvalue, and index.
    pub captures: Vec<(u16, u16)>,
    pub constants: Vec<ConstantTree>,
    pub const_codes: Vec<CodeTree>,
}

#[derive(Clone, PartialEq, Eq, Debug)]
pub enum ConstantTree {
    Null,
    Bool(bool),
    Int(i64),
    Float(u64),
    Str(Vec<u8>),
    Bytes(Vec<u8>),
    Function(u16),
    BuiltinEffect(u16),
    UserEffect {
        params: u16,
        variadic: bool,
        name: Vec<u8>,
    },
    /// Any record, one against the rules too.
    Record {
        kind: u16,
        body: Vec<u8>,
    },
}

/// The image of a program.
pub fn encode(program: &CodeTree) -> Vec<u8> {
    record(kind::CODE, &code_body(program))
}

/// A record: length of the body, kind, body.
pub fn record(kind: u16, body: &[u8]) -> Vec<u8> {
    let len = u32::try_from(body.len()).expect("a body is shorter than 2^32 bytes");
    let mut bytes = Vec::with_capacity(HEADER_BYTES + body.len());
    bytes.extend(len.to_le_bytes());
    bytes.extend(kind.to_le_bytes());
    bytes.extend(body);
    bytes
}

fn code_body(code: &CodeTree) -> Vec<u8> {
    let mut body = words(&[code.params, code.variadic.into(), code.locals, code.stack_size]);
    let opcodes: Vec<u8> = code.opcodes.iter().flat_map(opcode_bytes).collect();
    let captures: Vec<u8> = code.captures.iter().flat_map(|&(kind, index)| words(&[kind, index])).collect();
    let constants: Vec<u8> = code.constants.iter().flat_map(constant_record).collect();
    body.extend(record(kind::OPCODES, &opcodes));
    body.extend(record(kind::GLOBALS, &words(&code.globals)));
    body.extend(record(kind::CAPTURES, &captures));
    body.extend(record(kind::CONSTANTS, &constants));
    body.extend(code.const_codes.iter().flat_map(encode));
    body
}

fn opcode_bytes(&(opcode, operand): &(u16, u32)) -> [u8; 6] {
    let ([a, b], [c, d, e, f]) = (opcode.to_le_bytes(), operand.to_le_bytes());
    [a, b, c, d, e, f]
}

/// The record of a constant.
pub fn constant_record(constant: &ConstantTree) -> Vec<u8> {
    match constant {
        ConstantTree::Null => record(kind::NULL, &[]),
        ConstantTree::Bool(value) => record(kind::BOOL, &[(*value).into()]),
        ConstantTree::Int(value) => record(kind::INT, &value.to_le_bytes()),
        ConstantTree::Float(bits) => record(kind::FLOAT, &bits.to_le_bytes()),
        ConstantTree::Str(text) => record(kind::STR, text),
        ConstantTree::Bytes(bytes) => record(kind::BYTES, bytes),
        ConstantTree::Function(index) => record(kind::FUNCTION, &index.to_le_bytes()),
        ConstantTree::BuiltinEffect(number) => record(kind::EFFECT, &number.to_le_bytes()),
        ConstantTree::UserEffect { params, variadic, name } => {
            let mut body = words(&[3, *params, (*variadic).into()]);
            body.extend(name);
            record(kind::EFFECT, &body)
        }
        ConstantTree::Record { kind, body } => record(*kind, body),
    }
}

fn words(numbers: &[u16]) -> Vec<u8> {
    numbers.iter().flat_map(|number| number.to_le_bytes()).collect()
}

impl CodeTree {
    /// The tree of an accepted image's program.
    pub fn of(image: &[u8], program: &Program) -> CodeTree {
        CodeTree::of_code(image, program, &program.codes[0])
    }

    fn of_code(image: &[u8], program: &Program, code: &Code) -> CodeTree {
        let inner = |&number: &usize| CodeTree::of_code(image, program, &program.codes[number]);
        CodeTree {
            params: code.params,
            variadic: code.variadic,
            locals: code.locals,
            stack_size: code.stack_size,
            opcodes: code.opcodes.clone(),
            globals: code.globals.clone(),
            captures: code.captures.clone(),
            constants: code.constants.iter().map(|constant| ConstantTree::of(image, constant)).collect(),
            const_codes: code.const_codes.iter().map(inner).collect(),
        }
    }
}

impl ConstantTree {
    fn of(image: &[u8], constant: &Constant) -> ConstantTree {
        let bytes = |part: Part| part.of(image).to_vec();
        match *constant {
            Constant::Null => ConstantTree::Null,
            Constant::Bool(value) => ConstantTree::Bool(value),
            Constant::Int(value) => ConstantTree::Int(value),
            Constant::Float(bits) => ConstantTree::Float(bits),
            Constant::Str(text) => ConstantTree::Str(bytes(text)),
            Constant::Bytes(part) => ConstantTree::Bytes(bytes(part)),
            Constant::Function(index) => ConstantTree::Function(index),
            Constant::BuiltinEffect(number) => ConstantTree::BuiltinEffect(number),
            Constant::UserEffect { params, variadic, name } => {
                ConstantTree::UserEffect { params, variadic, name: bytes(name) }
            }
        }
    }
}
