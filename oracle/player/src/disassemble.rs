//! Image to text (README.md, "Text of an image"), such that the text assembles to the same bytes.

use std::{
    collections::BTreeSet,
    fmt::{self, Write},
};

use crate::{
    image::{BUILTIN_EFFECT_NAMES, OPCODE_NAMES, OperandKind, TYPE_NAMES, Table, kind, operand_kind, parse},
    tree::{CodeTree, ConstantTree, constant_record},
};

/// The text of an accepted image; of another one a comment with its refusal.
pub fn disassemble(image: &[u8]) -> String {
    match parse(image) {
        Ok(program) => disassemble_tree(&CodeTree::of(image, &program)),
        Err(refusal) => format!("# refused {refusal}\n"),
    }
}

/// The text of a program, one that breaks the rules too.
pub fn disassemble_tree(program: &CodeTree) -> String {
    let mut text = String::new();
    write_code(&mut text, program, "main", &mut 0, 0).expect("writing to a string does not fail");
    text
}

/// Writes a code; `written` counts the codes in front of it, `indent` the codes around it.
fn write_code(text: &mut String, code: &CodeTree, name: &str, written: &mut usize, indent: usize) -> fmt::Result {
    let (margin, inner) = ("    ".repeat(indent), "    ".repeat(indent + 1));
    write!(text, "{margin}code {name}{}", Params(code.params, code.variadic))?;
    for (word, count) in [("locals", code.locals), ("stack", code.stack_size)] {
        if count != 0 {
            write!(text, " {word} {count}")?;
        }
    }
    writeln!(text, " {{")?;
    let names: Vec<String> = code_names(code, *written);
    write_list(text, &format!("{inner}captures "), code.captures.iter().map(capture))?;
    write_list(text, &format!("{inner}globals "), code.globals.iter().map(u16::to_string))?;
    for item in &code.constants {
        writeln!(text, "{inner}const {}", constant(item, &names))?;
    }
    for (const_code, name) in code.const_codes.iter().zip(&names) {
        *written += 1;
        write_code(text, const_code, name, written, indent + 1)?;
    }
    write_opcodes(text, code, &names, &inner)?;
    writeln!(text, "{margin}}}")
}

/// Names of the `const_codes`: `c` and the code's number.
fn code_names(code: &CodeTree, written: usize) -> Vec<String> {
    let mut number = written + 1;
    let mut names = Vec::new();
    for const_code in &code.const_codes {
        names.push(format!("c{number}"));
        number += code_count(const_code);
    }
    names
}

fn code_count(code: &CodeTree) -> usize {
    1 + code.const_codes.iter().map(code_count).sum::<usize>()
}

/// `(2)` or `(2, ...)`; nothing stands for 0.
struct Params(u16, bool);

impl fmt::Display for Params {
    fn fmt(&self, f: &mut fmt::Formatter<'_>) -> fmt::Result {
        match *self {
            Params(0, false) => write!(f, "()"),
            Params(0, true) => write!(f, "(...)"),
            Params(count, false) => write!(f, "({count})"),
            Params(count, true) => write!(f, "({count}, ...)"),
        }
    }
}

fn write_list(text: &mut String, front: &str, items: impl Iterator<Item = String>) -> fmt::Result {
    let items: Vec<String> = items.collect();
    if items.is_empty() { Ok(()) } else { writeln!(text, "{front}{}", items.join(", ")) }
}

fn capture(&(kind, index): &(u16, u16)) -> String {
    match kind {
        0 => format!("local {index}"),
        1 => format!("upvalue {index}"),
        _ => format!("{kind} {index}"),
    }
}

fn constant(constant: &ConstantTree, names: &[String]) -> String {
    match constant {
        ConstantTree::Null => "null".to_string(),
        ConstantTree::Bool(value) => value.to_string(),
        ConstantTree::Int(value) => value.to_string(),
        ConstantTree::Float(bits) => format!("float {bits:#018x}"),
        ConstantTree::Str(text) => quote(text),
        ConstantTree::Bytes(bytes) => format!("bytes {}", hex_digits(bytes)),
        ConstantTree::Function(index) => match names.get(usize::from(*index)) {
            Some(name) => format!("fn {name}"),
            None => format!("fn {index}"),
        },
        ConstantTree::BuiltinEffect(number) => match BUILTIN_EFFECT_NAMES.get(usize::from(*number)) {
            Some(name) => name.to_string(),
            None => format!("record {} {}", kind::EFFECT, hex_digits(&number.to_le_bytes())),
        },
        ConstantTree::UserEffect { params, variadic, name } => {
            format!("effect {}{}", effect_name(name), Params(*params, *variadic))
        }
        ConstantTree::Record { kind, body } => format!("record {kind} {}", hex_digits(body)),
    }
}

/// A name in quotes unless it is a plain word.
fn effect_name(name: &[u8]) -> String {
    let is_word = name.first().is_some_and(|c| c.is_ascii_alphabetic())
        && name.iter().all(|&c| c.is_ascii_alphanumeric() || c == b'_');
    if is_word { String::from_utf8_lossy(name).into_owned() } else { quote(name) }
}

/// Text in quotes; what is not a letter, a digit or printable ASCII stands as \xNN.
pub fn quote(bytes: &[u8]) -> String {
    let mut quoted = "\"".to_string();
    for chunk in bytes.utf8_chunks() {
        for c in chunk.valid().chars() {
            match c {
                '"' | '\\' => quoted.extend(['\\', c]),
                '\n' => quoted.push_str("\\n"),
                '\t' => quoted.push_str("\\t"),
                ' '..='~' => quoted.push(c),
                _ if c.is_alphanumeric() => quoted.push(c),
                _ => quoted.push_str(&escaped(c.encode_utf8(&mut [0; 4]).as_bytes())),
            }
        }
        quoted.push_str(&escaped(chunk.invalid()));
    }
    quoted.push('"');
    quoted
}

fn escaped(bytes: &[u8]) -> String {
    bytes.iter().map(|byte| format!("\\x{byte:02x}")).collect()
}

/// Pairs of hexadecimal digits, or empty quotes; many equal bytes as `N * 00`.
fn hex_digits(bytes: &[u8]) -> String {
    match bytes {
        [] => "\"\"".to_string(),
        [first, rest @ ..] if rest.len() >= 16 && rest.iter().all(|byte| byte == first) => {
            format!("{} * {first:02x}", bytes.len())
        }
        _ => bytes.iter().map(|byte| format!("{byte:02x}")).collect(),
    }
}

/// Writes the opcodes, equal ones in a row once with their number, and a label at each target.
fn write_opcodes(text: &mut String, code: &CodeTree, names: &[String], margin: &str) -> fmt::Result {
    let labels = labels(code);
    let mut at = 0;
    while at < code.opcodes.len() {
        if labels.contains(&at) {
            writeln!(text, "{}L{at}:", &margin[2..])?;
        }
        let opcode = code.opcodes[at];
        let more =
            (at + 1..code.opcodes.len()).take_while(|&next| code.opcodes[next] == opcode && !labels.contains(&next));
        let count = 1 + more.count();
        let times = if count > 1 { format!("{count} * ") } else { String::new() };
        writeln!(text, "{margin}{times}{}", opcode_text(code, opcode, names))?;
        at += count;
    }
    Ok(())
}

/// The places that operands of the code have as targets.
fn labels(code: &CodeTree) -> BTreeSet<usize> {
    let target = |&(opcode, operand): &(u16, u32)| {
        let is_target = operand_kind(opcode) == Some(OperandKind::Target);
        Some(operand as usize).filter(|&place| is_target && place < code.opcodes.len())
    };
    code.opcodes.iter().filter_map(target).collect()
}

fn opcode_text(code: &CodeTree, (opcode, operand): (u16, u32), names: &[String]) -> String {
    let text = operand_kind(opcode).and_then(|kind| operand_text(code, kind, operand, names));
    match text {
        None => format!("op {opcode} {operand}"),
        Some(text) if text.is_empty() => OPCODE_NAMES[usize::from(opcode)].to_string(),
        Some(text) => format!("{} {text}", OPCODE_NAMES[usize::from(opcode)]),
    }
}

/// The text of an operand, if it has one behind the opcode's name.
fn operand_text(code: &CodeTree, kind: OperandKind, operand: u32, names: &[String]) -> Option<String> {
    let at = operand as usize;
    match kind {
        OperandKind::Unused => (operand == 0).then(String::new),
        OperandKind::Type => Some(TYPE_NAMES.get(at).map_or(operand.to_string(), |name| name.to_string())),
        OperandKind::Index(Table::Constants) => {
            let item = code.constants.get(at).filter(|_| is_first(&code.constants, at, constant_record))?;
            Some(constant(item, names))
        }
        OperandKind::Index(Table::Globals) => {
            let name = code.globals.get(at).filter(|_| is_first(&code.globals, at, |&name| name));
            Some(name.map_or(operand.to_string(), |name| format!("g{name}")))
        }
        OperandKind::Target if at < code.opcodes.len() => Some(format!("L{operand}")),
        _ => Some(operand.to_string()),
    }
}

/// Whether no item in front of this one is equal to it.
fn is_first<T, K: PartialEq>(items: &[T], at: usize, key: impl Fn(&T) -> K) -> bool {
    let wanted = key(&items[at]);
    !items[..at].iter().any(|item| key(item) == wanted)
}
