//! The crate and `include/lucia.h` have the same numbers, and memory has what the header says where it says.

mod images;

use std::collections::HashMap;

use images::identity;
use lucia::{
    Answer, BuiltinEffect, CallbackReturn, Cell, Constant, Fuel, Handle, Image, LIVE_CELLS, Machine, Memory, Message,
    Refusal, STATE_BYTES, STORE_CELLS, Type, Value,
};

/// The header's constants by name, without `LUCIA_`.
fn header() -> HashMap<&'static str, u64> {
    let text = include_str!("../../include/lucia.h");
    let constants: HashMap<_, _> = text.lines().flat_map(|line| line.split([',', '{'])).filter_map(constant).collect();
    assert!(constants.len() > 90, "{} constants", constants.len());
    constants
}

/// `LUCIA_NAME = 5` or `#define LUCIA_NAME 5`, with whatever behind.
fn constant(text: &str) -> Option<(&str, u64)> {
    let text = text.trim().trim_start_matches("#define ").strip_prefix("LUCIA_")?;
    let (name, rest) = text.split_once(' ')?;
    let number = rest.trim_start_matches("= ").split_whitespace().next()?;
    Some((name, number.parse().ok()?))
}

/// `ImageSize` as `IMAGE_SIZE`.
fn constant_name(name: &str) -> String {
    let words = name.char_indices().flat_map(|(at, letter)| {
        let gap = (at > 0 && letter.is_uppercase()).then_some('_');
        gap.into_iter().chain(letter.to_uppercase())
    });
    words.collect()
}

#[test]
fn answers_and_refusals_are_the_headers() {
    let header = header();
    for answer in [Answer::Done, Answer::OutOfFuel, Answer::Paused, Answer::Host, Answer::GoOn] {
        assert_eq!(header[&*constant_name(&format!("{answer:?}"))], answer.number().into());
    }
    let refusals: Vec<Refusal> =
        (1..100).map(Refusal::of).filter(|refusal| !refusal.words().contains("know")).collect();
    assert_eq!(refusals.len(), 14);
    for refusal in refusals {
        assert_eq!(header[&*constant_name(&format!("{refusal:?}"))], refusal.number().into());
    }
}

#[test]
fn tags_types_and_lengths_are_the_headers() {
    let header = header();
    let at = Constant { code: 0, index: 0 };
    for (name, value) in [
        ("NULL", Value::Null),
        ("BOOL", Value::Bool(true)),
        ("INT", Value::Int(0)),
        ("FLOAT", Value::Float(0)),
        ("STR", Value::Str(at)),
        ("BYTES", Value::Bytes(at)),
        ("LIST", Value::List(Handle(0))),
        ("CLOSURE", Value::Closure(Handle(0))),
        ("BUILTIN_EFFECT", Value::BuiltinEffect(BuiltinEffect::Yield)),
        ("MESSAGE", Value::Message(Message::CallArguments)),
        ("CONTINUATION", Value::Continuation(Handle(0))),
        ("EFFECT", Value::Effect(at)),
        ("CALLBACK", Value::Callback { number: 0, word: 0 }),
    ] {
        assert_eq!(header[name], Cell::from(value).tag.into(), "{name}");
    }
    for effect in [BuiltinEffect::Yield, BuiltinEffect::Error, BuiltinEffect::Panic] {
        assert_eq!(header[&*effect.name().to_uppercase()], effect.number().into());
    }
    for kind in (0..10).filter_map(Type::of) {
        assert_eq!(header[&*format!("TYPE_{}", kind.name().to_uppercase())], kind.number().into());
    }
    for (name, length) in [
        ("STATE_BYTES", STATE_BYTES),
        ("LIVE_CELLS", LIVE_CELLS),
        ("STORE_CELLS", STORE_CELLS),
        ("CELL_BYTES", Cell::BYTES),
        ("FUEL_BYTES", Fuel::BYTES),
    ] {
        assert_eq!(header[name], length as u64, "{name}");
    }
}

/// The number of so many bytes at a place that the header names.
fn number(machine: &Machine, at: u64, bytes: usize) -> u64 {
    let mut number = [0; 8];
    number[..bytes].copy_from_slice(&machine.memory().state()[at as usize..][..bytes]);
    u64::from_le_bytes(number)
}

fn cell(loan: &[u8], index: u64) -> Cell {
    Cell::of_bytes(loan[Cell::BYTES * index as usize..][..Cell::BYTES].try_into().unwrap())
}

#[test]
fn memory_has_what_the_header_says_where_it_says() {
    let header = header();
    let image = identity();
    let mut machine = Machine::new(Image::new(&image), Memory::new(64, 64));
    machine.load().unwrap();
    let callback = Value::Callback { number: 7, word: 1 };
    machine.set_global(255, callback).unwrap();
    machine.set_builtin(0, Value::Int(-1)).unwrap();
    assert_eq!(cell(machine.memory().state(), header["AT_GLOBALS"] / 16 + 255), callback.into());
    assert_eq!(cell(machine.memory().state(), header["AT_BUILTINS"] / 16), Value::Int(-1).into());

    machine.start(callback, &[Value::Int(5)]).unwrap();
    assert_eq!(machine.run(&mut Fuel::new(100), 1).answer, Ok(Answer::Host));
    for (name, bytes, expected) in [
        ("AT_LOADED", 4, 1),
        ("AT_FRAMES", 4, 1),
        ("AT_STORE_USED", 8, 1),
        ("AT_SLICE_LEFT", 4, header["SLICE"]),
        ("AT_WAIT", 4, 1),
        ("AT_RESULT_KIND", 8, header["RESULT_NONE"]),
    ] {
        assert_eq!(number(&machine, header[name], bytes), expected, "{name}");
    }
    let live = machine.memory().live();
    assert_eq!(u64::from(cell(live, header["FRAME_CELL_KIND"]).tag), header["FRAME_CALLBACK"]);
    assert_eq!(cell(live, header["FRAME_CELL_CALLEE"]), callback.into());
    let place = cell(live, header["FRAME_CELL_PLACE"]);
    assert_eq!((u64::from(place.tag), place.payload), (header["PLACE"], 1));
    assert_eq!(cell(live, header["FRAME_HEAD"]), Value::Int(5).into());
    let object = cell(machine.memory().store(), 0);
    assert_eq!(u64::from(object.tag), header["OBJECT_CLOSURE"]);

    let effect = Value::Effect(Constant { code: 0, index: 3 });
    let perform = CallbackReturn::TailPerform { effect, args: &[Value::Null] };
    machine.answer(&mut Fuel::new(100), 0, perform).unwrap();
    assert_eq!(number(&machine, header["AT_RESULT_KIND"], 8), header["RESULT_EFFECT"]);
    assert_eq!(cell(machine.memory().state(), header["AT_RESULT"] / 16), effect.into());
    assert_eq!(number(&machine, header["AT_RESULT_ARGS"], 8), 1);
}
