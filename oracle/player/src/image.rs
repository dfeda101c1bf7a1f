//! The image, read as document 01 says ("The image", "From the input"): every byte string gets its refusal number or its program.

/// The fewest and the most bytes of an image.
pub const MIN_BYTES: usize = 6;
pub const MAX_BYTES: usize = 65_536;
/// How deep codes nest; the outermost is depth 1.
pub const MAX_DEPTH: usize = 8;
pub const MAX_CODES: usize = 256;
/// The most of each per code.
pub const MAX_OPCODES: usize = 4_096;
pub const MAX_LOCALS: usize = 256;
pub const MAX_CONSTANTS: usize = 1_024;
pub const MAX_GLOBALS: usize = 256;
pub const MAX_CAPTURES: usize = 256;
/// The most parameters of a code or an effect.
pub const MAX_PARAMS: usize = 32;
/// Bytes of a record in front of its body: length (32 bits) and kind (16 bits).
pub const HEADER_BYTES: usize = 6;

/// Kinds of records.
pub mod kind {
    pub const CODE: u16 = 1;
    pub const OPCODES: u16 = 2;
    pub const GLOBALS: u16 = 3;
    pub const CAPTURES: u16 = 4;
    pub const CONSTANTS: u16 = 5;
    pub const NULL: u16 = 16;
    pub const BOOL: u16 = 17;
    pub const INT: u16 = 18;
    pub const FLOAT: u16 = 19;
    pub const STR: u16 = 20;
    pub const BYTES: u16 = 21;
    pub const FUNCTION: u16 = 22;
    pub const EFFECT: u16 = 23;
}

/// Numbers of refusals of an image.
pub mod refusal {
    /// Image under 6 or over 65,536 bytes.
    pub const SIZE: u32 = 1;
    /// Record past its parent, left-over bytes, wrong kind or size.
    pub const RECORD: u32 = 2;
    /// A number against the image rules, or text not UTF-8.
    pub const NUMBER: u32 = 3;
    /// Depth over 8 or a 257th code.
    pub const NESTING: u32 = 4;
}

/// A program: its codes in the order in which they begin in the image.
#[derive(Clone, PartialEq, Eq, Debug)]
pub struct Program {
    pub codes: Vec<Code>,
}

#[derive(Clone, PartialEq, Eq, Debug)]
pub struct Code {
    pub params: u16,
    pub variadic: bool,
    pub locals: u16,
    pub stack_size: u16,
    /// Number and operand.
    pub opcodes: Vec<(u16, u32)>,
    /// Name numbers.
    pub globals: Vec<u16>,
    /// 0 local or 1 upvalue (the outermost's may be anything), and index.
    pub captures: Vec<(u16, u16)>,
    pub constants: Vec<Constant>,
    /// The numbers of its `const_codes`.
    pub const_codes: Vec<usize>,
}

/// A part of the image.
#[derive(Clone, Copy, PartialEq, Eq, Debug)]
pub struct Part {
    pub start: usize,
    pub len: usize,
}

#[derive(Clone, PartialEq, Eq, Debug)]
pub enum Constant {
    Null,
    Bool(bool),
    Int(i64),
    Float(u64),
    Str(Part),
    Bytes(Part),
    /// Index into its own code's `const_codes`.
    Function(u16),
    /// 0 Yield, 1 Error, 2 Panic.
    BuiltinEffect(u16),
    UserEffect {
        params: u16,
        variadic: bool,
        name: Part,
    },
}

impl Part {
    /// Its bytes.
    pub fn of(self, image: &[u8]) -> &[u8] {
        &image[self.start..self.start + self.len]
    }
}

/// What an opcode's operand says.
#[derive(Clone, Copy, PartialEq, Eq, Debug)]
pub enum OperandKind {
    /// It is 0.
    Unused,
    /// Any number.
    Count,
    /// A type's number.
    Type,
    /// An index into a table of its code.
    Index(Table),
    /// A place in its code.
    Target,
}

/// The tables of a code that operands index.
#[derive(Clone, Copy, PartialEq, Eq, Debug)]
pub enum Table {
    Locals,
    Globals,
    Captures,
    Constants,
}

/// The kind of an opcode's operand; `None` for numbers left out or over 51.
pub fn operand_kind(opcode: u16) -> Option<OperandKind> {
    Some(match opcode {
        0 | 17..=29 | 37 => OperandKind::Unused,
        1 | 2 | 10 | 36 | 38 | 50 | 51 => OperandKind::Count,
        3 | 7 => OperandKind::Index(Table::Locals),
        4 | 8 => OperandKind::Index(Table::Globals),
        5 => OperandKind::Index(Table::Captures),
        6 => OperandKind::Index(Table::Constants),
        30 => OperandKind::Type,
        40..=49 => OperandKind::Target,
        _ => return None,
    })
}

/// Whether a code may end with the opcode: `Return` or a plain jump.
pub fn ends_code(opcode: u16) -> bool {
    matches!(opcode, 37 | 40..=43)
}

/// Names of the opcodes by number, those left out too.
#[rustfmt::skip]
pub const OPCODE_NAMES: [&str; 52] = [
    "Pop", "Copy", "Swap", "LoadLocal", "LoadGlobal", "LoadUpvalue", "LoadConst", "StoreLocal", "StoreGlobal",
    "BuildTable", "BuildList", "GetAttr", "GetItem", "GetMeta", "SetAttr", "SetItem", "SetMeta",
    "Neg", "Not", "Add", "Sub", "Mul", "Div", "Rem", "Eq", "Ne", "Gt", "Ge", "Lt", "Le", "TypeCheck",
    "GetLen", "Import", "ImportFrom", "ImportGlob", "Iter", "Call", "Return", "ReturnCall", "LoadLocals",
    "Jump", "JumpBackEdge", "Break", "Continue",
    "JumpPopIfNull", "PopJumpIfTrue", "PopJumpIfFalse", "JumpIfTrueOrPop", "JumpIfFalseOrPop",
    "RegisterHandler", "CheckEffect", "MarkAddStackSize",
];

/// Names of `ValueType` by number.
#[rustfmt::skip]
pub const TYPE_NAMES: [&str; 10] = [
    "Null", "Bool", "Int", "Float", "Str", "Bytes", "Table", "Function", "Effect", "UserData",
];

/// Names of `MetaName` by number.
#[rustfmt::skip]
pub const META_NAMES: [&str; 24] = [
    "Call", "Iter", "GetAttr", "GetItem", "SetAttr", "SetItem", "Neg", "Add", "Sub", "Mul", "Div", "Rem",
    "Eq", "Ne", "Gt", "Ge", "Lt", "Le", "Len", "Bool", "Int", "Float", "Str", "Repr",
];

/// Names of the builtin effects by number.
pub const BUILTIN_EFFECT_NAMES: [&str; 3] = ["Yield", "Error", "Panic"];

/// The program of an image, or the number of its refusal: 1, then 2 and 4 from the front (4 first at one record), then 3.
pub fn parse(image: &[u8]) -> Result<Program, u32> {
    if !(MIN_BYTES..=MAX_BYTES).contains(&image.len()) {
        return Err(refusal::SIZE);
    }
    let codes = structure(image)?;
    let codes = codes.iter().map(|code| decode_code(image, &codes, code)).collect::<Option<_>>();
    codes.map(|codes| Program { codes }).ok_or(refusal::NUMBER)
}

/// Kind and body of each code's constants, of an accepted image.
pub fn constants(image: &[u8]) -> Vec<Vec<(u16, Part)>> {
    let codes = structure(image).expect("the image is accepted");
    codes.into_iter().map(|code| code.constants).collect()
}

/// A code whose records have the right kinds and sizes; its numbers are not tested yet.
struct RawCode {
    /// Parameter count, variadic, locals, `stack_size`.
    numbers: [u16; 4],
    opcodes: Part,
    globals: Part,
    captures: Part,
    /// Kind and body.
    constants: Vec<(u16, Part)>,
    /// The number of the code around it.
    enclosing: Option<usize>,
    const_codes: Vec<usize>,
}

/// The codes of the image, or 2 or 4.
fn structure(image: &[u8]) -> Result<Vec<RawCode>, u32> {
    let mut codes = Vec::new();
    let mut records = Records { image, at: 0, end: image.len() };
    read_code(&mut records, &mut codes, None, MAX_DEPTH)?;
    records.finish()?;
    Ok(codes)
}

/// A walk over the records of one part of the image.
struct Records<'a> {
    image: &'a [u8],
    at: usize,
    end: usize,
}

impl<'a> Records<'a> {
    fn of(image: &'a [u8], part: Part) -> Self {
        Records { image, at: part.start, end: part.start + part.len }
    }

    /// Takes the next bytes.
    fn take(&mut self, len: usize) -> Result<Part, u32> {
        if len > self.end - self.at {
            return Err(refusal::RECORD);
        }
        let part = Part { start: self.at, len };
        self.at += len;
        Ok(part)
    }

    /// Takes the next record's header: length of its body, and kind.
    fn header(&mut self) -> Result<(usize, u16), u32> {
        let header = self.take(HEADER_BYTES)?.of(self.image);
        Ok((u32_at(header, 0) as usize, u16_at(header, 4)))
    }

    /// Takes the next record, which has this kind and is a list of items of this size.
    fn list(&mut self, kind: u16, item: usize) -> Result<Part, u32> {
        let (len, found) = self.header()?;
        let body = self.take(len)?;
        if found == kind && len % item == 0 { Ok(body) } else { Err(refusal::RECORD) }
    }

    fn is_empty(&self) -> bool {
        self.at == self.end
    }

    /// Nothing is left over.
    fn finish(&self) -> Result<(), u32> {
        if self.is_empty() { Ok(()) } else { Err(refusal::RECORD) }
    }
}

/// Reads the next record as a code, adds it and the codes in it to `codes`, and gives its number.
fn read_code(
    records: &mut Records,
    codes: &mut Vec<RawCode>,
    enclosing: Option<usize>,
    depth_left: usize,
) -> Result<usize, u32> {
    let (len, kind) = records.header()?;
    if kind != kind::CODE {
        return Err(refusal::RECORD);
    }
    if depth_left == 0 || codes.len() == MAX_CODES {
        return Err(refusal::NESTING);
    }
    let mut body = Records::of(records.image, records.take(len)?);
    let number = codes.len();
    codes.push(read_tables(&mut body, enclosing)?);
    while !body.is_empty() {
        let const_code = read_code(&mut body, codes, Some(number), depth_left - 1)?;
        codes[number].const_codes.push(const_code);
    }
    Ok(number)
}

/// Reads a code's body up to its `const_codes`.
fn read_tables(body: &mut Records, enclosing: Option<usize>) -> Result<RawCode, u32> {
    let numbers = body.take(8)?.of(body.image);
    Ok(RawCode {
        numbers: [0, 2, 4, 6].map(|at| u16_at(numbers, at)),
        opcodes: body.list(kind::OPCODES, 6)?,
        globals: body.list(kind::GLOBALS, 2)?,
        captures: body.list(kind::CAPTURES, 4)?,
        constants: read_constants(body)?,
        enclosing,
        const_codes: Vec::new(),
    })
}

fn read_constants(body: &mut Records) -> Result<Vec<(u16, Part)>, u32> {
    let part = body.list(kind::CONSTANTS, 1)?;
    let mut records = Records::of(body.image, part);
    let mut constants = Vec::new();
    while !records.is_empty() {
        let (len, kind) = records.header()?;
        let constant = records.take(len)?;
        if !is_constant_size(kind, constant.of(body.image)) {
            return Err(refusal::RECORD);
        }
        constants.push((kind, constant));
    }
    Ok(constants)
}

/// Whether the kind is one of a constant, and the body has a size of that kind.
fn is_constant_size(kind: u16, body: &[u8]) -> bool {
    match kind {
        kind::NULL => body.is_empty(),
        kind::BOOL => body.len() == 1,
        kind::INT | kind::FLOAT => body.len() == 8,
        kind::STR | kind::BYTES => true,
        kind::FUNCTION => body.len() == 2,
        kind::EFFECT if body.len() < 2 => false,
        kind::EFFECT => match u16_at(body, 0) {
            0..=2 => body.len() == 2,
            3 => body.len() >= 6,
            _ => true,
        },
        _ => false,
    }
}

/// The code, unless a number of it is against the rules.
fn decode_code(image: &[u8], codes: &[RawCode], raw: &RawCode) -> Option<Code> {
    let [params, variadic, locals, stack_size] = raw.numbers;
    let opcodes = raw.opcodes.of(image).chunks_exact(6).map(|item| (u16_at(item, 0), u32_at(item, 2)));
    let globals = raw.globals.of(image).chunks_exact(2).map(|item| u16_at(item, 0));
    let captures = raw.captures.of(image).chunks_exact(4).map(|item| (u16_at(item, 0), u16_at(item, 2)));
    let constants = raw.constants.iter().map(|&(kind, part)| decode_constant(image, raw, kind, part));
    let code = Code {
        params: decode_params(params)?,
        variadic: decode_bool(variadic)?,
        locals,
        stack_size,
        opcodes: opcodes.collect(),
        globals: globals.collect(),
        captures: captures.collect(),
        constants: constants.collect::<Option<_>>()?,
        const_codes: raw.const_codes.clone(),
    };
    let captured = raw.enclosing.is_none_or(|number| captures_exist(&code.captures, &codes[number]));
    (captured && counts_fit(&code) && opcodes_fit(&code)).then_some(code)
}

fn decode_constant(image: &[u8], code: &RawCode, kind: u16, part: Part) -> Option<Constant> {
    let body = part.of(image);
    Some(match kind {
        kind::NULL => Constant::Null,
        kind::BOOL => Constant::Bool(decode_bool(body[0].into())?),
        kind::INT => Constant::Int(u64_at(body, 0) as i64),
        kind::FLOAT => Constant::Float(u64_at(body, 0)),
        kind::STR => Constant::Str(decode_text(image, part)?),
        kind::BYTES => Constant::Bytes(part),
        kind::FUNCTION => {
            let index = u16_at(body, 0);
            (usize::from(index) < code.const_codes.len()).then_some(Constant::Function(index))?
        }
        _ => decode_effect(image, part)?,
    })
}

fn decode_effect(image: &[u8], part: Part) -> Option<Constant> {
    let body = part.of(image);
    match u16_at(body, 0) {
        number @ 0..=2 => Some(Constant::BuiltinEffect(number)),
        3 => Some(Constant::UserEffect {
            params: decode_params(u16_at(body, 2))?,
            variadic: decode_bool(u16_at(body, 4))?,
            name: decode_text(image, Part { start: part.start + 6, len: part.len - 6 })?,
        }),
        _ => None,
    }
}

fn decode_params(number: u16) -> Option<u16> {
    (usize::from(number) <= MAX_PARAMS).then_some(number)
}

fn decode_bool(number: u16) -> Option<bool> {
    match number {
        0 => Some(false),
        1 => Some(true),
        _ => None,
    }
}

/// The part, if it is UTF-8 by RFC 3629.
fn decode_text(image: &[u8], part: Part) -> Option<Part> {
    std::str::from_utf8(part.of(image)).ok().map(|_| part)
}

/// Whether each capture is a local or an upvalue of the enclosing code.
fn captures_exist(captures: &[(u16, u16)], enclosing: &RawCode) -> bool {
    captures.iter().all(|&(kind, index)| match kind {
        0 => index < enclosing.numbers[2],
        1 => usize::from(index) < enclosing.captures.len / 4,
        _ => false,
    })
}

/// Whether no table of the code is too long, and its name numbers are below 256.
fn counts_fit(code: &Code) -> bool {
    (1..=MAX_OPCODES).contains(&code.opcodes.len())
        && usize::from(code.locals) <= MAX_LOCALS
        && code.constants.len() <= MAX_CONSTANTS
        && code.globals.len() <= MAX_GLOBALS
        && code.captures.len() <= MAX_CAPTURES
        && code.globals.iter().all(|&name| name < 256)
}

/// Whether each operand lies in its table, and the last opcode is one that never falls off the end.
fn opcodes_fit(code: &Code) -> bool {
    code.opcodes.iter().all(|&(opcode, operand)| operand_fits(code, opcode, operand))
        && code.opcodes.last().is_some_and(|&(opcode, _)| ends_code(opcode))
}

fn operand_fits(code: &Code, opcode: u16, operand: u32) -> bool {
    let below = |len: usize| (operand as usize) < len;
    match operand_kind(opcode) {
        None => false,
        Some(OperandKind::Unused) => operand == 0,
        Some(OperandKind::Count) => true,
        Some(OperandKind::Type) => below(TYPE_NAMES.len()),
        Some(OperandKind::Index(Table::Locals)) => below(code.locals.into()),
        Some(OperandKind::Index(Table::Globals)) => below(code.globals.len()),
        Some(OperandKind::Index(Table::Captures)) => below(code.captures.len()),
        Some(OperandKind::Index(Table::Constants)) => below(code.constants.len()),
        Some(OperandKind::Target) => below(code.opcodes.len()),
    }
}

fn u16_at(bytes: &[u8], at: usize) -> u16 {
    u16::from_le_bytes([bytes[at], bytes[at + 1]])
}

fn u32_at(bytes: &[u8], at: usize) -> u32 {
    u32::from_le_bytes([bytes[at], bytes[at + 1], bytes[at + 2], bytes[at + 3]])
}

fn u64_at(bytes: &[u8], at: usize) -> u64 {
    u64::from(u32_at(bytes, at)) | u64::from(u32_at(bytes, at + 4)) << 32
}
