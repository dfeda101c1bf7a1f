//! Values, and what a call leaves, as lines of text (README.md, "Text of values", "Text of what a call leaves").

use crate::{
    call::{Answer, Call, code},
    cell::{Cell, tag},
    image::{BUILTIN_EFFECT_NAMES, META_NAMES, OPCODE_NAMES, TYPE_NAMES},
    snapshot::{Fault, Frame, FrameKind, Handler, Object, Outcome, Snapshot},
    words::{Words, hex},
};

/// A value's text; a malformed cell is written as `cell`.
pub fn value(cell: Cell) -> String {
    let Cell { tag, number, payload } = cell;
    match (tag, number, payload) {
        (tag::NULL, 0, 0) => "null".into(),
        (tag::BOOL, 0 | 1, 0) => (number == 1).to_string(),
        (tag::INT, 0, _) => (payload as i64).to_string(),
        (tag::FLOAT, 0, _) => format!("float {payload:#018x}"),
        (tag::STR, ..) => format!("str {number}:{payload}"),
        (tag::MESSAGE, _, 0) => format!("message {number}"),
        (tag::BYTES, ..) => format!("bytes {number}:{payload}"),
        (tag::LIST, _, 0) => format!("list @{number}"),
        (tag::CLOSURE, _, 0) => format!("closure @{number}"),
        (tag::CONTINUATION, _, 0) => format!("continuation @{number}"),
        (tag::CALLBACK, ..) => format!("callback {number} word {payload}"),
        (tag::BUILTIN_EFFECT, 0..=2, 0) => BUILTIN_EFFECT_NAMES[number as usize].into(),
        (tag::USER_EFFECT, ..) => format!("effect {number}:{payload}"),
        _ => format!("cell {tag} {number} {payload}"),
    }
}

/// Values in brackets.
pub fn values(cells: &[Cell]) -> String {
    let texts: Vec<String> = cells.iter().copied().map(value).collect();
    format!("[{}]", texts.join(", "))
}

/// Reads the value that comes next.
pub fn parse_value(words: &mut Words<'_>) -> Result<Cell, String> {
    let word = words.need("a value")?;
    if let Some(effect) = BUILTIN_EFFECT_NAMES.iter().position(|&name| name == word) {
        return Ok(Cell::new(tag::BUILTIN_EFFECT, effect as u32, 0));
    }
    Ok(match word {
        "null" => Cell::NULL,
        "false" => Cell::new(tag::BOOL, 0, 0),
        "true" => Cell::new(tag::BOOL, 1, 0),
        "float" => Cell::new(tag::FLOAT, 0, parse_bits(words)?),
        "str" => parse_constant(tag::STR, words)?,
        "bytes" => parse_constant(tag::BYTES, words)?,
        "effect" => parse_constant(tag::USER_EFFECT, words)?,
        "message" => Cell::new(tag::MESSAGE, words.number("a message number")?, 0),
        "list" => parse_handle(tag::LIST, words)?,
        "closure" => parse_handle(tag::CLOSURE, words)?,
        "continuation" => parse_handle(tag::CONTINUATION, words)?,
        "callback" => parse_callback(words)?,
        "cell" => Cell::new(words.number("a tag")?, words.number("a cell's number")?, words.number("a payload")?),
        _ => Cell::int(word.parse().map_err(|_| format!("`{word}` is no value"))?),
    })
}

/// The bits of a float: `0x` and hexadecimal digits.
fn parse_bits(words: &mut Words<'_>) -> Result<u64, String> {
    let word = words.need("a float's bits")?;
    let digits = word.strip_prefix("0x").ok_or("a float's bits start with 0x")?;
    u64::from_str_radix(digits, 16).map_err(|_| format!("`{word}` is no float's bits"))
}

/// `CODE:CONSTANT`.
fn parse_constant(tag: u32, words: &mut Words<'_>) -> Result<Cell, String> {
    let word = words.need("CODE:CONSTANT")?;
    let parts = word.split_once(':').and_then(|(code, constant)| Some((code.parse().ok()?, constant.parse().ok()?)));
    let (code, constant) = parts.ok_or_else(|| format!("`{word}` is not CODE:CONSTANT"))?;
    Ok(Cell::new(tag, code, constant))
}

/// `@HANDLE`.
fn parse_handle(tag: u32, words: &mut Words<'_>) -> Result<Cell, String> {
    let word = words.need("@HANDLE")?;
    let handle = word.strip_prefix('@').and_then(|number| number.parse().ok());
    Ok(Cell::new(tag, handle.ok_or_else(|| format!("`{word}` is not @HANDLE"))?, 0))
}

fn parse_callback(words: &mut Words<'_>) -> Result<Cell, String> {
    let number = words.number("a callback's number")?;
    words.expect("word")?;
    Ok(Cell::new(tag::CALLBACK, number, words.number("a word")?))
}

/// The name of an answer's number.
pub fn answer(number: u32) -> String {
    match number {
        code::ACCEPTED => "accepted".into(),
        code::DONE => "done".into(),
        code::OUT_OF_FUEL => "out of fuel".into(),
        code::PAUSED => "paused".into(),
        code::HOST => "host".into(),
        code::GO_ON => "go on".into(),
        refusal => format!("refused {refusal}"),
    }
}

/// Fuel of 5 bytes as number and mark, any other loan as its bytes.
pub fn fuel(bytes: &[u8]) -> String {
    match bytes {
        &[a, b, c, d, mark] => format!("fuel {} mark {mark}", i32::from_le_bytes([a, b, c, d])),
        _ => format!("fuel bytes {}", hex(bytes)).trim_end().into(),
    }
}

/// All lines of what a call leaves.
pub fn dump(call: &Call, given: &Answer, fuel_left: &[u8], snapshot: &Snapshot) -> Vec<String> {
    let mut lines = vec![format!("answer {}", answer(given.code))];
    match call {
        Call::Run { .. } => lines.extend([format!("ticks {}", given.ticks), fuel(fuel_left)]),
        Call::Answer { .. } => lines.push(fuel(fuel_left)),
        Call::Load | Call::GetGlobal { .. } | Call::GetBuiltin { .. } if given.code == code::ACCEPTED => {
            lines.push(format!("value {}", value(given.value)));
        }
        Call::Text { .. } | Call::Bytes { .. } if given.code == code::ACCEPTED => {
            let from = if given.from == 0 { "image" } else { "page" };
            lines.push(format!("part {from} {} {}", given.start, given.len));
        }
        _ => {}
    }
    state(snapshot, &mut lines);
    lines
}

/// The lines of what memory holds.
fn state(snapshot: &Snapshot, lines: &mut Vec<String>) {
    if !snapshot.loaded {
        lines.push("nothing loaded".into());
        return;
    }
    lines.push(format!("live {}", snapshot.live()));
    lines.push(format!("frames {}", snapshot.frames.len()));
    lines.extend(frames("", &snapshot.frames));
    lines.push(format!("result {}", outcome(&snapshot.result)));
    lines.push(format!("wait {}", if snapshot.wait { "yes" } else { "no" }));
    lines.push(format!("left {}", snapshot.left));
    lines.push(format!("store {}", snapshot.stored()));
    let mut handle = 0;
    for object in &snapshot.store {
        push_object(handle, object, lines);
        handle += object.cost();
    }
    lines.extend(table("global", &snapshot.globals));
    lines.extend(table("builtin", &snapshot.builtins));
}

/// The values of a table that are not null.
fn table(name: &str, cells: &[Cell]) -> impl Iterator<Item = String> {
    let set = cells.iter().enumerate().filter(|&(_, &cell)| cell != Cell::NULL);
    set.map(move |(number, &cell)| format!("{name} {number} = {}", value(cell)))
}

fn push_object(handle: usize, object: &Object, lines: &mut Vec<String>) {
    match object {
        Object::Closure { code, upvalues } => {
            lines.push(format!("object @{handle} closure {code} {}", values(upvalues)));
        }
        Object::List(items) => lines.push(format!("object @{handle} list {}", values(items))),
        Object::Continuation(captured) => {
            lines.push(format!("object @{handle} continuation {}", captured.len()));
            lines.extend(frames(&format!("object @{handle} "), captured));
        }
    }
}

/// One line for each frame, bottom first.
fn frames(before: &str, frames: &[Frame]) -> impl Iterator<Item = String> {
    frames.iter().enumerate().map(move |(index, frame)| format!("{before}frame {index} {}", frame_text(frame)))
}

fn frame_text(frame: &Frame) -> String {
    let (what, is_lucia) = match frame.kind {
        FrameKind::Lucia { closure, place } => (format!("closure @{closure} place {place}"), true),
        FrameKind::Host { number, word } => (format!("callback {number} word {word}"), false),
        FrameKind::Effect { effect } => (format!("effect {}", value(effect)), false),
    };
    let handlers: Vec<String> = frame.handlers.iter().map(|handler| handler_text(handler, is_lucia)).collect();
    let (locals, stack) = (values(&frame.locals), values(&frame.stack));
    format!("{what} locals {locals} handlers [{}] stack {stack}", handlers.join(", "))
}

/// A Lucia frame's handler shows its target and stack size, a callback frame's its effect alone.
fn handler_text(handler: &Handler, is_lucia: bool) -> String {
    let effect = value(handler.effect);
    match handler {
        Handler { target: 0, stack_size: 0, .. } if !is_lucia => effect,
        Handler { target, stack_size, .. } => format!("{effect} -> {target} ({stack_size})"),
    }
}

fn outcome(outcome: &Outcome) -> String {
    match outcome {
        Outcome::None => "none".into(),
        Outcome::Value(cell) => format!("value {}", value(*cell)),
        Outcome::Error(error) => format!("error {}", fault(error)),
        Outcome::Effect { effect, args } => format!("effect {} {}", value(*effect), values(args)),
    }
}

fn fault(fault: &Fault) -> String {
    let type_name = |number| name(&TYPE_NAMES, number);
    match *fault {
        Fault::CallArguments { start, end, given } => {
            let end = end.map_or("-".into(), |end| end.to_string());
            format!("CallArguments {start} {end} {given}")
        }
        Fault::UnOperator { opcode, operand, of } => {
            format!("UnOperator {} {operand} {}", name(&OPCODE_NAMES, opcode), type_name(of))
        }
        Fault::BinOperator { opcode, operand, of } => {
            let [first, second] = of.map(type_name);
            format!("BinOperator {} {operand} {first} {second}", name(&OPCODE_NAMES, opcode))
        }
        Fault::MetaUnOperator { name: meta, of } => {
            format!("MetaUnOperator {} {}", name(&META_NAMES, meta), type_name(of))
        }
        Fault::MetaBinOperator { name: meta, of } => {
            let [first, second] = of.map(type_name);
            format!("MetaBinOperator {} {first} {second}", name(&META_NAMES, meta))
        }
        Fault::ZeroDivisor => "ZeroDivisor".into(),
        Fault::LuciaError(cell) => format!("LuciaError {}", value(cell)),
        Fault::LuciaPanic(cell) => format!("LuciaPanic {}", value(cell)),
    }
}

/// The name of a number, or the number itself if it has none.
fn name(names: &[&str], number: u32) -> String {
    names.get(number as usize).map_or_else(|| number.to_string(), |name| (*name).into())
}

#[cfg(test)]
mod tests {
    use super::*;

    fn parsed(text: &str) -> Result<Cell, String> {
        let mut words = Words::new(text);
        let cell = parse_value(&mut words)?;
        words.end().map(|()| cell)
    }

    #[test]
    fn every_cell_comes_back_from_its_text() {
        let numbers = [0, 1, 2, 3, 6, 7, 100, u32::MAX];
        for tag in (0..70).chain([u32::MAX]) {
            for number in numbers {
                for payload in [0, 1, 5, i64::MAX as u64, i64::MIN as u64, u64::MAX] {
                    let cell = Cell::new(tag, number, payload);
                    assert_eq!(parsed(&value(cell)), Ok(cell), "{}", value(cell));
                }
            }
        }
    }

    #[test]
    fn texts_of_values_are_those_of_the_readme() {
        let texts = "null, true, false, 5, -7, float 0x3ff0000000000000, str 0:2, message 4, bytes 0:1, list @5, closure @0, \
                     continuation @7, callback 7 word 100, Yield, Error, Panic, effect 0:1, cell 9 0 1";
        for text in texts.split(", ") {
            assert_eq!(parsed(text).map(value).as_deref(), Ok(text));
        }
        for text in ["", "nul", "str 0", "str 0:", "list 5", "closure @-1", "callback 7", "float 3ff0", "5 6"] {
            assert!(parsed(text).is_err(), "{text}");
        }
    }

    fn sample() -> Snapshot {
        let handler = |effect, target| Handler { effect, target, stack_size: 0 };
        let lucia = Frame {
            kind: FrameKind::Lucia { closure: 0, place: 3 },
            locals: vec![],
            handlers: vec![handler(Cell::new(tag::USER_EFFECT, 0, 1), 5)],
            stack: vec![Cell::int(1), Cell::NULL],
        };
        let host = Frame {
            kind: FrameKind::Host { number: 7, word: 100 },
            locals: vec![],
            handlers: vec![handler(Cell::new(tag::BUILTIN_EFFECT, 0, 0), 0)],
            stack: vec![],
        };
        let mut globals = vec![Cell::NULL; 256];
        globals[5] = Cell::int(7);
        Snapshot {
            loaded: true,
            frames: vec![lucia.clone(), host],
            result: Outcome::Error(Fault::BinOperator { opcode: 50, operand: 77, of: [2, 8] }),
            wait: true,
            left: 64,
            store: vec![
                Object::Closure { code: 0, upvalues: vec![] },
                Object::List(vec![Cell::int(1)]),
                Object::Continuation(vec![lucia]),
            ],
            globals,
            builtins: vec![Cell::NULL; 256],
        }
    }

    #[test]
    fn a_dump_has_all_lines_in_order() {
        let given = Answer { ticks: 2, ..Answer::of(code::HOST) };
        let lines = dump(&Call::Run { ticks: 9 }, &given, &[0xff, 0xff, 0xff, 0xff, 7], &sample());
        let frame = "closure @0 place 3 locals [] handlers [effect 0:1 -> 5 (0)] stack [1, null]";
        let expected = format!(
            "answer host|ticks 2|fuel -1 mark 7|live 18|frames 2|frame 0 {frame}\
             |frame 1 callback 7 word 100 locals [] handlers [Yield] stack []\
             |result error BinOperator CheckEffect 77 Int Effect|wait yes|left 64|store 14|object @0 closure 0 []\
             |object @1 list [1]|object @3 continuation 1|object @3 frame 0 {frame}|global 5 = 7"
        );
        assert_eq!(lines.join("|"), expected);
    }

    #[test]
    fn what_a_call_gives_stands_before_what_memory_holds() {
        let nothing = Snapshot { loaded: false, ..sample() };
        let text = Call::Text { value: Cell::NULL };
        let part = Answer { from: 1, start: 4, len: 3, ..Answer::default() };
        assert_eq!(dump(&text, &part, &[], &nothing), ["answer accepted", "part page 4 3", "nothing loaded"]);
        assert_eq!(dump(&text, &Answer::of(10), &[], &nothing), ["answer refused 10", "nothing loaded"]);
        let run = Call::Run { ticks: 1 };
        assert_eq!(dump(&run, &Answer::of(6), &[1], &nothing)[2], "fuel bytes 01");
    }
}
