//! Text to image (README.md, "Text of an image"); the image may break the rules, for tests of refusals.

use std::{collections::HashMap, fmt};

pub use crate::disassemble::disassemble;
pub use crate::tree::{CodeTree, ConstantTree, encode};

use crate::{
    image::{BUILTIN_EFFECT_NAMES, OPCODE_NAMES, OperandKind, TYPE_NAMES, Table, operand_kind},
    token::{Token, Tokens, tokens},
};

/// What is wrong with a text, and in which line.
#[derive(Clone, PartialEq, Eq, Debug)]
pub struct TextError {
    pub line: usize,
    pub reason: String,
}

impl fmt::Display for TextError {
    fn fmt(&self, f: &mut fmt::Formatter<'_>) -> fmt::Result {
        write!(f, "line {}: {}", self.line, self.reason)
    }
}

impl std::error::Error for TextError {}

pub type Result<T> = std::result::Result<T, TextError>;

/// The image of a text.
pub fn assemble(text: &str) -> Result<Vec<u8>> {
    assemble_tree(text).map(|tree| encode(&tree))
}

/// The program of a text.
pub fn assemble_tree(text: &str) -> Result<CodeTree> {
    let mut tokens = tokens(text)?;
    tokens.word("code")?;
    let (_, tree) = parse_code(&mut tokens)?;
    match tokens.next_token() {
        Token::End => Ok(tree),
        token => tokens.fail(format!("`{token}` behind the program")),
    }
}

/// An operand as written; names are looked up when the whole code is read.
#[derive(Clone)]
enum Operand {
    Number(u32),
    Global(u16),
    Constant(Written),
    Label(String),
}

/// A constant as written.
#[derive(Clone)]
enum Written {
    Constant(ConstantTree),
    /// `fn NAME`
    Function(String),
}

#[derive(Clone)]
struct Instruction {
    line: usize,
    opcode: u16,
    operand: Operand,
}

/// A code being read.
#[derive(Default)]
struct Draft {
    tree: CodeTree,
    constants: Vec<(usize, Written)>,
    instructions: Vec<Instruction>,
    labels: HashMap<String, u32>,
    /// Index by name.
    const_codes: HashMap<String, u16>,
}

/// Reads a code behind the word `code`: its name and tree.
fn parse_code(tokens: &mut Tokens) -> Result<(String, CodeTree)> {
    let name = tokens.name()?;
    let (params, variadic) = parse_params(tokens)?;
    let mut draft = Draft { tree: CodeTree { params, variadic, ..CodeTree::default() }, ..Draft::default() };
    while !tokens.take('{') {
        match tokens.name()?.as_str() {
            "locals" => draft.tree.locals = tokens.number()?,
            "stack" => draft.tree.stack_size = tokens.number()?,
            other => return tokens.fail(format!("`locals`, `stack` or `{{` expected, not `{other}`")),
        }
    }
    while !tokens.take('}') {
        parse_item(tokens, &mut draft)?;
    }
    Ok((name, draft.finish()?))
}

/// `()`, `(2)`, `(2, ...)` or `(...)`.
fn parse_params(tokens: &mut Tokens) -> Result<(u16, bool)> {
    tokens.expect('(')?;
    let counted = !tokens.sees(')') && !tokens.sees('\u{2026}');
    let params = if counted { tokens.number()? } else { 0 };
    let variadic = if counted { tokens.take(',') } else { tokens.sees('\u{2026}') };
    if variadic {
        tokens.expect('\u{2026}')?;
    }
    tokens.expect(')')?;
    Ok((params, variadic))
}

fn parse_item(tokens: &mut Tokens, draft: &mut Draft) -> Result<()> {
    match tokens.peek().word() {
        Some(word) if tokens.second_is(':') => parse_label(tokens, draft, word.to_string()),
        Some("captures") => parse_captures(tokens, draft),
        Some("globals") => parse_globals(tokens, draft),
        Some("const") => parse_constants(tokens, draft),
        Some("code") => parse_const_code(tokens, draft),
        _ => parse_instruction(tokens, draft),
    }
}

fn parse_captures(tokens: &mut Tokens, draft: &mut Draft) -> Result<()> {
    tokens.word("captures")?;
    loop {
        let kind = match tokens.peek().word() {
            Some("local") => tokens.word("local").map(|()| 0)?,
            Some("upvalue") => tokens.word("upvalue").map(|()| 1)?,
            _ => tokens.number()?,
        };
        draft.tree.captures.push((kind, tokens.number()?));
        if !tokens.take(',') {
            return Ok(());
        }
    }
}

fn parse_globals(tokens: &mut Tokens, draft: &mut Draft) -> Result<()> {
    tokens.word("globals")?;
    loop {
        draft.tree.globals.push(tokens.number()?);
        if !tokens.take(',') {
            return Ok(());
        }
    }
}

fn parse_constants(tokens: &mut Tokens, draft: &mut Draft) -> Result<()> {
    tokens.word("const")?;
    loop {
        let line = tokens.line();
        draft.constants.push((line, parse_constant(tokens)?));
        if !tokens.take(',') {
            return Ok(());
        }
    }
}

fn parse_const_code(tokens: &mut Tokens, draft: &mut Draft) -> Result<()> {
    tokens.word("code")?;
    let line = tokens.line();
    let (name, tree) = parse_code(tokens)?;
    let index = draft.tree.const_codes.len() as u16;
    draft.tree.const_codes.push(tree);
    match draft.const_codes.insert(name.clone(), index) {
        None => Ok(()),
        Some(_) => Err(TextError { line, reason: format!("a second code `{name}` in one code") }),
    }
}

fn parse_label(tokens: &mut Tokens, draft: &mut Draft, name: String) -> Result<()> {
    tokens.word(&name)?;
    tokens.expect(':')?;
    let place = draft.instructions.len() as u32;
    match draft.labels.insert(name.clone(), place) {
        None => Ok(()),
        Some(_) => tokens.fail(format!("a second label `{name}` in one code")),
    }
}

/// `OPCODE OPERAND`, perhaps with `N *` in front.
fn parse_instruction(tokens: &mut Tokens, draft: &mut Draft) -> Result<()> {
    let times = if tokens.second_is('*') { tokens.number::<u32>()? } else { 1 };
    tokens.take('*');
    let line = tokens.line();
    let (opcode, operand) = parse_opcode(tokens)?;
    let instruction = Instruction { line, opcode, operand };
    draft.instructions.extend(std::iter::repeat_n(instruction, times as usize));
    Ok(())
}

fn parse_opcode(tokens: &mut Tokens) -> Result<(u16, Operand)> {
    let name = tokens.name()?;
    if name == "op" {
        return Ok((tokens.number()?, Operand::Number(tokens.number()?)));
    }
    let Some(opcode) = position(&OPCODE_NAMES, &name) else {
        return tokens.fail(format!("no opcode `{name}`"));
    };
    let Some(kind) = operand_kind(opcode) else {
        return tokens.fail(format!("opcode `{name}` is left out; `op {opcode} OPERAND` writes it all the same"));
    };
    Ok((opcode, parse_operand(tokens, kind)?))
}

fn parse_operand(tokens: &mut Tokens, kind: OperandKind) -> Result<Operand> {
    match kind {
        OperandKind::Unused => return Ok(Operand::Number(0)),
        OperandKind::Index(Table::Constants) => return parse_constant(tokens).map(Operand::Constant),
        _ if !tokens.sees_name() => return tokens.number().map(Operand::Number),
        _ => (),
    }
    let word = tokens.name()?;
    let operand = match kind {
        OperandKind::Type => position(&TYPE_NAMES, &word).map(|number| Operand::Number(number.into())),
        OperandKind::Index(Table::Globals) => global_name(&word).map(Operand::Global),
        OperandKind::Target => Some(Operand::Label(word.clone())),
        _ => None,
    };
    operand.ok_or_else(|| tokens.error(format!("`{word}` is no operand of this opcode")))
}

/// The name number of `gN`.
fn global_name(word: &str) -> Option<u16> {
    word.strip_prefix('g').and_then(|number| number.parse().ok())
}

/// The number of a name.
fn position(names: &[&str], name: &str) -> Option<u16> {
    names.iter().position(|&known| known == name).map(|at| at as u16)
}

fn parse_constant(tokens: &mut Tokens) -> Result<Written> {
    if let Some(text) = tokens.text() {
        return Ok(Written::Constant(ConstantTree::Str(text)));
    }
    if !tokens.sees_name() {
        return tokens.number().map(|value| Written::Constant(ConstantTree::Int(value)));
    }
    let word = tokens.name()?;
    Ok(Written::Constant(match word.as_str() {
        "null" => ConstantTree::Null,
        "true" => ConstantTree::Bool(true),
        "false" => ConstantTree::Bool(false),
        "float" => ConstantTree::Float(tokens.number()?),
        "bytes" => ConstantTree::Bytes(parse_bytes(tokens)?),
        "record" => ConstantTree::Record { kind: tokens.number()?, body: parse_bytes(tokens)? },
        "effect" => parse_effect(tokens)?,
        "fn" => return parse_function(tokens),
        _ => match position(&BUILTIN_EFFECT_NAMES, &word) {
            Some(number) => ConstantTree::BuiltinEffect(number),
            None => return tokens.fail(format!("no constant `{word}`")),
        },
    }))
}

/// `fn NAME`, or `fn N` for an index.
fn parse_function(tokens: &mut Tokens) -> Result<Written> {
    if tokens.sees_name() {
        return tokens.name().map(Written::Function);
    }
    tokens.number().map(|index| Written::Constant(ConstantTree::Function(index)))
}

/// `NAME(PARAMS)`, where a name that is no word stands in quotes.
fn parse_effect(tokens: &mut Tokens) -> Result<ConstantTree> {
    let name = match tokens.text() {
        Some(text) => text,
        None => tokens.name()?.into_bytes(),
    };
    let (params, variadic) = parse_params(tokens)?;
    Ok(ConstantTree::UserEffect { params, variadic, name })
}

/// `00ff`, `"text"` or `N * 00ff`.
fn parse_bytes(tokens: &mut Tokens) -> Result<Vec<u8>> {
    let times = if tokens.second_is('*') { tokens.number::<u32>()? } else { 1 };
    tokens.take('*');
    let bytes = match tokens.next_token() {
        Token::Text(text) => Some(text),
        Token::Word(word) => hex(&word),
        _ => None,
    };
    match bytes {
        Some(bytes) => Ok(bytes.repeat(times as usize)),
        None => tokens.fail("bytes are pairs of hexadecimal digits, or text in quotes".to_string()),
    }
}

/// The bytes of pairs of hexadecimal digits.
pub fn hex(digits: &str) -> Option<Vec<u8>> {
    let digits: Option<Vec<u32>> = digits.chars().map(|c| c.to_digit(16)).collect();
    let digits = digits.filter(|digits| digits.len() % 2 == 0)?;
    Some(digits.chunks_exact(2).map(|pair| (16 * pair[0] + pair[1]) as u8).collect())
}

impl Draft {
    /// Looks up what was written by name.
    fn finish(mut self) -> Result<CodeTree> {
        for (line, written) in std::mem::take(&mut self.constants) {
            let constant = self.constant(line, written)?;
            self.tree.constants.push(constant);
        }
        for Instruction { line, opcode, operand } in std::mem::take(&mut self.instructions) {
            let operand = self.operand(line, operand)?;
            self.tree.opcodes.push((opcode, operand));
        }
        Ok(self.tree)
    }

    fn constant(&self, line: usize, written: Written) -> Result<ConstantTree> {
        match written {
            Written::Constant(constant) => Ok(constant),
            Written::Function(name) => match self.const_codes.get(&name) {
                Some(&index) => Ok(ConstantTree::Function(index)),
                None => Err(TextError { line, reason: format!("no code `{name}` in this code") }),
            },
        }
    }

    fn operand(&mut self, line: usize, operand: Operand) -> Result<u32> {
        match operand {
            Operand::Number(number) => Ok(number),
            Operand::Global(name) => Ok(index_of(&mut self.tree.globals, name)),
            Operand::Constant(written) => {
                let constant = self.constant(line, written)?;
                Ok(index_of(&mut self.tree.constants, constant))
            }
            Operand::Label(name) => match self.labels.get(&name) {
                Some(&place) => Ok(place),
                None => Err(TextError { line, reason: format!("no label `{name}` in this code") }),
            },
        }
    }
}

/// The index of the first equal item, which is added if there is none.
fn index_of<T: PartialEq>(table: &mut Vec<T>, item: T) -> u32 {
    let index = table.iter().position(|known| *known == item).unwrap_or_else(|| {
        table.push(item);
        table.len() - 1
    });
    index as u32
}
