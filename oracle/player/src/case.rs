//! Case files (README.md, "Case files"): lists of calls with what must come out.

use std::{fmt, rc::Rc};

use crate::{
    assemble::{assemble, disassemble},
    call::{Call, Loans, Machine},
    cell::{Cell, bytes_of},
    image,
    step::{After, Step, fuel_bytes},
    text,
    words::{Words, hex, parse_hex, parse_quoted, quoted},
};

/// The fuel that is lent before a case names another.
const FUEL: i32 = 1_000_000;

pub struct Case {
    pub file: String,
    pub line: usize,
    pub name: String,
    /// What the case shows.
    pub words: String,
    /// Each with its line.
    items: Vec<(usize, Item)>,
}

/// A line of a case; what is lent is lent from there on.
enum Item {
    Image(Rc<[u8]>),
    Loan(Loan, usize),
    Fuel(Vec<u8>),
    Page(Rc<[u8]>),
    Call(Call),
    /// The dump has this line.
    Has(String),
    /// No line of the dump begins so.
    HasNo(String),
}

#[derive(Clone, Copy)]
enum Loan {
    State,
    Live,
    Store,
}

/// A line that is no line of a case file.
#[derive(Debug)]
pub struct Malformed {
    pub file: String,
    pub line: usize,
    pub reason: String,
}

impl fmt::Display for Malformed {
    fn fmt(&self, f: &mut fmt::Formatter<'_>) -> fmt::Result {
        write!(f, "{}:{}: {}", self.file, self.line, self.reason)
    }
}

/// An expectation that is not met.
#[derive(Debug)]
pub struct Failure {
    pub file: String,
    pub line: usize,
    pub case: String,
    pub expected: String,
    pub dump: Vec<String>,
}

impl fmt::Display for Failure {
    fn fmt(&self, f: &mut fmt::Formatter<'_>) -> fmt::Result {
        writeln!(f, "{}:{}: case {} expects", self.file, self.line, self.case)?;
        writeln!(f, "    {}", self.expected)?;
        write!(f, "the call before it leaves")?;
        self.dump.iter().try_for_each(|line| write!(f, "\n    {line}"))
    }
}

/// The cases of a file.
pub fn parse(file: &str, text: &str) -> Result<Vec<Case>, Malformed> {
    let malformed = |line, reason| Malformed { file: file.into(), line, reason };
    let mut cases: Vec<Case> = Vec::new();
    let mut lines = (1..).zip(text.lines());
    while let Some((number, line)) = lines.next() {
        let line = without_comment(line);
        if line.is_empty() {
            continue;
        }
        if let Some(head) = line.strip_prefix("case ") {
            let (name, words) = head.split_once(':').unwrap_or((head, ""));
            let (name, words) = (name.trim().into(), words.trim().into());
            cases.push(Case { file: file.into(), line: number, name, words, items: Vec::new() });
            continue;
        }
        let case = cases.last_mut().ok_or_else(|| malformed(number, "no case is begun".into()))?;
        let items = match line.strip_prefix("image").map(str::trim_start) {
            Some(rest) if rest.starts_with('{') => braced(number, rest, &mut lines).map(|image| vec![image]),
            _ => parse_line(line, case).map_err(|reason| (number, reason)),
        };
        let items = items.map_err(|(line, reason)| malformed(line, reason))?;
        case.items.extend(items.into_iter().map(|item| (number, item)));
    }
    match cases.iter().find(|case| !case.asserts()) {
        Some(case) => Err(malformed(case.line, format!("case {} expects nothing", case.name))),
        None => Ok(cases),
    }
}

/// The line up to a `#` outside quotes.
fn without_comment(line: &str) -> &str {
    let mut quoted = Quoted::default();
    let end = line.char_indices().find(|&(_, c)| !quoted.next(c) && c == '#');
    line[..end.map_or(line.len(), |(at, _)| at)].trim()
}

/// Whether a walk over characters is inside quotes.
#[derive(Default)]
struct Quoted {
    inside: bool,
    escape: bool,
}

impl Quoted {
    fn next(&mut self, c: char) -> bool {
        if self.escape {
            self.escape = false;
        } else if c == '"' {
            self.inside = !self.inside;
        } else {
            self.escape = self.inside && c == '\\';
        }
        self.inside
    }
}

/// The image whose text stands in braces, over several lines or not.
fn braced<'a>(
    number: usize,
    first: &'a str,
    lines: &mut impl Iterator<Item = (usize, &'a str)>,
) -> Result<Item, (usize, String)> {
    let malformed = |reason: &str| (number, reason.to_string());
    let mut text = "\n".repeat(number - 1); // so that the assembler names lines of the file
    let mut depth = 0;
    let mut line = first;
    loop {
        let mut quoted = Quoted::default();
        for c in line.chars().filter(|&c| !quoted.next(c)) {
            depth += i32::from(c == '{') - i32::from(c == '}');
        }
        text.push_str(line);
        text.push('\n');
        if depth <= 0 {
            break;
        }
        line = without_comment(lines.next().ok_or_else(|| malformed("the image's brace is not closed"))?.1);
    }
    let outer = (text.find('{'), text.trim_end().strip_suffix('}').map(str::len));
    let (Some(begin), Some(end)) = outer else { return Err(malformed("text after the image's brace")) };
    text.replace_range(begin..=begin, " ");
    text.truncate(end);
    assemble(&text).map(|bytes| Item::Image(bytes.into())).map_err(|error| (error.line, error.reason))
}

fn parse_line(line: &str, case: &Case) -> Result<Vec<Item>, String> {
    let expectation = |text: &str, item: fn(String) -> Item| {
        let called = case.items.iter().any(|(_, item)| matches!(item, Item::Call(_)));
        let text = text.trim().to_string();
        if called && !text.is_empty() {
            Ok(vec![item(text)])
        } else {
            Err("expects of no call, or nothing".to_string())
        }
    };
    if let Some(text) = line.strip_prefix('=') {
        return expectation(text, Item::Has);
    }
    if let Some(text) = line.strip_prefix('!') {
        return expectation(text, Item::HasNo);
    }
    let mut words = Words::new(line);
    let items = match words.need("a call")? {
        "image" => vec![Item::Image(rest_after("bytes", &mut words).and_then(parse_hex)?.into())],
        "loans" => parse_loans(&mut words)?,
        "fuel" => vec![Item::Fuel(parse_fuel(&mut words)?)],
        "page" => vec![Item::Page(parse_quoted(take_rest(&mut words))?.into())],
        call => vec![Item::Call(parse_call(call, &mut words)?)],
    };
    words.end()?;
    Ok(items)
}

fn take_rest<'a>(words: &mut Words<'a>) -> &'a str {
    let rest = words.rest();
    *words = Words::new("");
    rest
}

fn rest_after<'a>(word: &str, words: &mut Words<'a>) -> Result<&'a str, String> {
    words.expect(word)?;
    Ok(take_rest(words))
}

/// `live N`, `store N` in cells, or `state bytes N`, `live bytes N`, `store bytes N`, in any order.
fn parse_loans(words: &mut Words<'_>) -> Result<Vec<Item>, String> {
    let mut items = Vec::new();
    while let Some(word) = words.peek() {
        let loan = match word {
            "state" => Loan::State,
            "live" => Loan::Live,
            "store" => Loan::Store,
            _ => return Err(format!("`{word}` is no loan")),
        };
        words.expect(word)?;
        let in_bytes = words.take("bytes");
        if !in_bytes && matches!(loan, Loan::State) {
            return Err("the state's length is given in bytes".into());
        }
        let length: usize = words.number("a length")?;
        items.push(Item::Loan(loan, if in_bytes { length } else { length * 16 }));
    }
    Ok(items)
}

fn parse_fuel(words: &mut Words<'_>) -> Result<Vec<u8>, String> {
    if words.take("bytes") {
        return parse_hex(take_rest(words));
    }
    let number = words.number("fuel")?;
    let mark = if words.take("mark") { words.number("a mark")? } else { 0 };
    Ok(fuel_bytes(number, mark))
}

fn parse_call(call: &str, words: &mut Words<'_>) -> Result<Call, String> {
    let number = |words: &mut Words<'_>| words.number("a number");
    Ok(match call {
        "load" => Call::Load,
        "start" => Call::Start { function: text::parse_value(words)?, args: parse_list(words)? },
        "run" => Call::Run { ticks: words.number("ticks")? },
        "answer" => parse_answer(words)?,
        "clear" => Call::Clear,
        "text" => Call::Text { value: text::parse_value(words)? },
        "bytes" => Call::Bytes { value: text::parse_value(words)? },
        "set_global" => Call::SetGlobal { number: number(words)?, value: text::parse_value(words)? },
        "get_global" => Call::GetGlobal { number: number(words)? },
        "set_builtin" => Call::SetBuiltin { number: number(words)?, value: text::parse_value(words)? },
        "get_builtin" => Call::GetBuiltin { number: number(words)? },
        _ => return Err(format!("`{call}` is no call")),
    })
}

/// Names of the kinds of answers by number.
const ANSWER_NAMES: [&str; 7] = ["call", "perform", "tail_call", "tail_perform", "return", "error", "panic"];

fn parse_answer(words: &mut Words<'_>) -> Result<Call, String> {
    let name = words.need("a kind of answer")?;
    let kind = match ANSWER_NAMES.iter().position(|&known| known == name) {
        Some(kind) => kind as u32,
        None if name == "kind" => words.number("a kind")?,
        None => return Err(format!("`{name}` is no kind of answer")),
    };
    let subject = text::parse_value(words)?;
    let args = parse_list(words)?;
    let handlers = if words.take("handlers") { parse_list(words)? } else { Vec::new() };
    let word = if words.take("word") { words.number("a word")? } else { 0 };
    Ok(Call::Answer { kind, word, subject, args, handlers })
}

/// Values in parentheses as their bytes; none if there are no parentheses.
fn parse_list(words: &mut Words<'_>) -> Result<Vec<u8>, String> {
    if !words.take("(") || words.take(")") {
        return Ok(Vec::new());
    }
    let mut ahead = *words;
    if ahead.take("bytes") && ahead.peek().is_some_and(|word| !word.contains(':')) {
        let bytes = parse_hex(ahead.need("bytes")?)?;
        *words = ahead;
        words.expect(")")?;
        return Ok(bytes);
    }
    let mut cells = vec![text::parse_value(words)?];
    while words.take(",") {
        cells.push(text::parse_value(words)?);
    }
    words.expect(")")?;
    Ok(bytes_of(&cells))
}

impl Case {
    fn asserts(&self) -> bool {
        self.items.iter().any(|(_, item)| matches!(item, Item::Has(_) | Item::HasNo(_)))
    }

    /// The first image that it lends.
    pub fn image(&self) -> Option<&[u8]> {
        self.items.iter().find_map(|(_, item)| match item {
            Item::Image(image) => Some(&**image),
            _ => None,
        })
    }

    /// Plays the case on a new machine and shows each call with what it left before the expectations are looked at.
    pub fn play(&self, machine: &mut dyn Machine, each: &mut dyn FnMut(&Step, &After)) -> Result<(), Failure> {
        let mut lent = Step {
            image: Rc::default(),
            loans: Loans::default(),
            fuel: fuel_bytes(FUEL, 0),
            page: Rc::default(),
            call: Call::Load,
        };
        let mut dump = Vec::new();
        for (line, item) in &self.items {
            match item {
                Item::Image(image) => lent.image = Rc::clone(image),
                Item::Loan(Loan::State, length) => lent.loans.state = *length,
                Item::Loan(Loan::Live, length) => lent.loans.live = *length,
                Item::Loan(Loan::Store, length) => lent.loans.store = *length,
                Item::Fuel(fuel) => lent.fuel.clone_from(fuel),
                Item::Page(page) => lent.page = Rc::clone(page),
                Item::Call(call) => {
                    lent.call = call.clone();
                    let after = lent.play(machine);
                    each(&lent, &after);
                    dump = after.dump(call);
                    lent.fuel = after.fuel;
                }
                Item::Has(text) if !dump.contains(text) => return Err(self.failure(*line, format!("= {text}"), dump)),
                Item::HasNo(text) if dump.iter().any(|line| line.starts_with(text)) => {
                    return Err(self.failure(*line, format!("! {text}"), dump));
                }
                Item::Has(_) | Item::HasNo(_) => {}
            }
        }
        Ok(())
    }

    fn failure(&self, line: usize, expected: String, dump: Vec<String>) -> Failure {
        Failure { file: self.file.clone(), line, case: self.name.clone(), expected, dump }
    }
}

/// A call as a line of a case.
pub fn call_text(call: &Call) -> String {
    match call {
        Call::Load => "load".into(),
        Call::Start { function, args } => format!("start {}{}", text::value(*function), list_text(args)),
        Call::Run { ticks } => format!("run {ticks}"),
        Call::Answer { kind, word, subject, args, handlers } => {
            let name = ANSWER_NAMES.get(*kind as usize).map_or_else(|| format!("kind {kind}"), |name| (*name).into());
            let handlers = match list_text(handlers) {
                list if list.is_empty() => list,
                list => format!(" handlers{list}"),
            };
            format!("answer {name} {}{}{handlers} word {word}", text::value(*subject), list_text(args))
        }
        Call::Clear => "clear".into(),
        Call::Text { value } => format!("text {}", text::value(*value)),
        Call::Bytes { value } => format!("bytes {}", text::value(*value)),
        Call::SetGlobal { number, value } => format!("set_global {number} {}", text::value(*value)),
        Call::GetGlobal { number } => format!("get_global {number}"),
        Call::SetBuiltin { number, value } => format!("set_builtin {number} {}", text::value(*value)),
        Call::GetBuiltin { number } => format!("get_builtin {number}"),
    }
}

/// A list of values with a blank before it; nothing for an empty one.
fn list_text(bytes: &[u8]) -> String {
    if bytes.is_empty() {
        return String::new();
    }
    if !bytes.len().is_multiple_of(16) {
        return format!(" (bytes {})", hex(bytes));
    }
    let values: Vec<String> = bytes.chunks(16).map(|cell| text::value(Cell::from_bytes(cell))).collect();
    format!(" ({})", values.join(", "))
}

/// The text of a case that plays the steps and expects every line of what each left, and of a last step nothing.
pub fn write(name: &str, words: &str, list: &[(Step, After)], last: Option<&Step>) -> String {
    let mut lines = vec![format!("case {name}: {words}")];
    let mut before: Option<(&Step, &After)> = None;
    for (step, after) in list {
        lent_text(step, before, &mut lines);
        lines.push(call_text(&step.call));
        lines.extend(after.dump(&step.call).iter().map(|line| format!("= {line}")));
        before = Some((step, after));
    }
    if let Some(step) = last {
        lent_text(step, before, &mut lines);
        lines.push(call_text(&step.call));
    }
    lines.push(String::new());
    lines.join("\n")
}

/// The lines for what a step is lent otherwise than the one before.
fn lent_text(step: &Step, before: Option<(&Step, &After)>, lines: &mut Vec<String>) {
    if before.is_none_or(|(last, _)| last.image != step.image) {
        lines.push(image_text(&step.image));
    }
    if before.map_or(Loans::default(), |(last, _)| last.loans) != step.loans {
        let Loans { state, live, store } = step.loans;
        lines.push(format!("loans state bytes {state} live bytes {live} store bytes {store}"));
    }
    if before.map_or(&fuel_bytes(FUEL, 0), |(_, after)| &after.fuel) != &step.fuel {
        lines.push(text::fuel(&step.fuel));
    }
    if before.map_or(&Rc::default(), |(last, _)| &last.page) != &step.page {
        lines.push(format!("page {}", quoted(&step.page)));
    }
}

/// An accepted image as text, any other as its bytes.
fn image_text(bytes: &[u8]) -> String {
    match image::parse(bytes) {
        Ok(_) => format!("image {{\n{}\n}}", disassemble(bytes).trim_end()),
        Err(_) => format!("image bytes {}", hex(bytes)).trim_end().into(),
    }
}

#[cfg(test)]
mod tests {
    use super::*;
    use crate::{driver::Driver, generate};

    const RETURN_NULL: &str = "
        case P1: null constant, Return   # document 01
        image {
            code main() { LoadConst null  # a brace } in a comment
                Return }
        }
        fuel 68
        load
        = value closure @0
        start closure @0
        run 100
        = answer done
        = fuel 1 mark 0
        ! frame 0
        = result value null
    ";

    fn played(text: &str) -> Result<(), Failure> {
        let cases = parse("a.case", text).unwrap_or_else(|malformed| panic!("{malformed}"));
        cases.iter().try_for_each(|case| case.play(&mut Driver::new(), &mut |_, _| ()))
    }

    #[test]
    fn a_case_passes() {
        assert!(played(RETURN_NULL).is_ok());
    }

    #[test]
    fn a_case_fails_with_line_and_dump() {
        let failure = played(&RETURN_NULL.replace("= fuel 1 mark 0", "= fuel 2 mark 0")).unwrap_err();
        assert_eq!((failure.line, failure.case.as_str(), failure.expected.as_str()), (13, "P1", "= fuel 2 mark 0"));
        assert!(failure.to_string().contains("\n    fuel 1 mark 0\n"));
        let failure = played(&RETURN_NULL.replace("! frame 0", "! frames")).unwrap_err();
        assert_eq!((failure.line, failure.expected.as_str()), (14, "! frames"));
    }

    #[test]
    fn what_is_no_case_is_named_with_its_line() {
        let malformed = |text: &str| parse("a.case", text).err().map(|malformed| malformed.to_string());
        let said = |text: &str, what: &str| assert_eq!(malformed(text).as_deref(), Some(what), "{text}");
        said("load", "a.case:1: no case is begun");
        said("case a: b\nload", "a.case:1: case a expects nothing");
        said("case a:\n= answer done", "a.case:2: expects of no call, or nothing");
        said("case a:\nload 5", "a.case:2: `5` is left over");
        said("case a:\n\nrun x", "a.case:3: `x` is not ticks");
        said("case a:\nimage {\ncode main() {", "a.case:2: the image's brace is not closed");
        said("case a:\nanswer giggle 5", "a.case:2: `giggle` is no kind of answer");
        assert!(
            malformed("case a:\nimage {\ncode main() {\nNothing 5\n}\n}")
                .is_some_and(|text| text.starts_with("a.case:4: "))
        );
    }

    #[test]
    fn calls_come_back_from_their_text() {
        for text in [
            "start closure @0 (1, list @5, callback 7 word 3)",
            "start null (bytes 00ff)",
            "answer call continuation @3 (5) handlers (Yield, effect 0:1) word 9",
            "answer return callback 1 word 2 word 3",
            "answer kind 9 null handlers (bytes 01) word 0",
            "set_builtin 256 cell 9 1 2",
            "start closure @0 (bytes 0:1)",
        ] {
            let mut words = Words::new(text);
            let name = words.need("a call").unwrap();
            let call = parse_call(name, &mut words).unwrap();
            assert_eq!((call_text(&call).as_str(), words.rest()), (text, ""));
        }
    }

    #[test]
    fn random_lists_pass_as_cases() {
        for seed in 0..40 {
            let mut list = Vec::new();
            generate::list(seed, &mut Driver::new(), &mut |step, after| list.push((step.clone(), after.clone())));
            played(&write("kept", "a list", &list, None)).unwrap_or_else(|failure| panic!("seed {seed}: {failure}"));
        }
    }
}
