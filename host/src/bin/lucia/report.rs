//! What came of a run, in lines of words.

use std::fmt::Write;

use lucia::{Answer, Callee, Frame, Fuel, Handler, Machine, Refusal, RunResult, Value, Values, View};

/// A line: what it is about, then what is said.
fn line(about: &str, said: impl AsRef<str>) -> String {
    format!("{about:<9} {}\n", said.as_ref())
}

/// A refusal before a run.
pub fn refused(refusal: Refusal) -> String {
    line("answer", answer(Err(refusal)))
}

/// All of what a run left.
pub fn ran(machine: &Machine, answered: Result<Answer, Refusal>, ticks: u64, fuel: &Fuel, lent: i32) -> String {
    let mut report = line("answer", answer(answered));
    report += &line("ticks", ticks.to_string());
    report += &line("fuel", format!("{} left of {lent}", fuel.number()));
    report += &left(machine).unwrap_or_else(|refusal| line("memory", answer(Err(refusal))));
    report
}

fn answer(answered: Result<Answer, Refusal>) -> String {
    match answered {
        Ok(answer) => format!("{} {answer}", answer.number()),
        Err(refusal) => format!("{} refused: {}", refusal.number(), refusal.words()),
    }
}

/// Wait, result and frames.
fn left(machine: &Machine) -> Result<String, Refusal> {
    let view = machine.view();
    let mut report = asked(machine, view)?;
    let result = view.result()?.map(|result| result_words(machine, &result));
    report += &line("result", result.as_deref().unwrap_or("none"));
    let frames = view.frames()?;
    let order = if frames.len() > 1 { ", the top frame first" } else { "" };
    report += &line("frames", format!("{}{order}", frames.len()));
    for (index, frame) in frames.iter().enumerate().rev() {
        report += &frame_lines(machine, index, frame);
    }
    Ok(report)
}

/// The callback that waits for the host.
fn asked(machine: &Machine, view: View<'_>) -> Result<String, Refusal> {
    let asked = view.waiting()?.map(|waiting| {
        let args = list(machine, waiting.args);
        line("host", format!("function {}, word {}, is asked with {args}", waiting.number, waiting.word))
    });
    Ok(asked.unwrap_or_default())
}

fn result_words(machine: &Machine, result: &RunResult<'_>) -> String {
    match *result {
        RunResult::Value(given) => format!("{} ({})", value(machine, given), given.kind()),
        RunResult::Effect { effect, args } => {
            format!("{effect}, which no frame handles, with {}", list(machine, args))
        }
        RunResult::Error(thrown) => format!("Error thrown with {}", value(machine, thrown)),
        RunResult::Panic(thrown) => format!("Panic thrown with {}", value(machine, thrown)),
        error => error.to_string(),
    }
}

/// What a frame runs, then what it holds, each on a line of its own if there is any.
fn frame_lines(machine: &Machine, index: usize, frame: &Frame<'_>) -> String {
    let (callee, holds) = match frame.callee {
        Callee::Closure(handle) => (format!("closure {handle}, next opcode {}", frame.place), "stack"),
        Callee::Callback { number, word } => (format!("function {number} of the host, word {word}"), "arguments"),
        Callee::Effect(effect) => (format!("{effect}, called as a function"), "arguments"),
    };
    let mut lines = line(&format!("  {index}"), callee);
    let mut held = |name: &str, text: String| {
        // Writing to a String can't fail.
        let _ = writeln!(lines, "{:<9} {name:<9} {text}", "");
    };
    if !frame.locals.is_empty() {
        held("locals", list(machine, frame.locals));
    }
    if !frame.handlers.is_empty() {
        held("handlers", frame.handlers.iter().map(handler).collect::<Vec<_>>().join(", "));
    }
    if !frame.stack.is_empty() {
        held(holds, list(machine, frame.stack));
    }
    lines
}

fn handler(handler: Handler) -> String {
    format!("{} at opcode {}", handler.effect, handler.target)
}

fn list(machine: &Machine, values: Values<'_>) -> String {
    let words: Vec<String> = values.iter().map(|given| value(machine, given)).collect();
    if words.is_empty() { "no values".into() } else { words.join(", ") }
}

/// A value in words; a Str or Bytes of the image by what it says.
fn value(machine: &Machine, value: Value) -> String {
    match value {
        Value::Str(_) => {
            machine.text(&[], value).map_or_else(|_| value.to_string(), |text| format!("{:?}", text.to_str_lossy()))
        }
        Value::Bytes(_) => machine.bytes(value).map_or_else(|_| value.to_string(), hex),
        _ => value.to_string(),
    }
}

fn hex(bytes: &[u8]) -> String {
    bytes.iter().fold(String::from("bytes 0x"), |text, byte| format!("{text}{byte:02x}"))
}
