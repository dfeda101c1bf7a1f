//! Lists of calls with what they left, as equations in antt, which the checker
//! computes from the definitions of crate `machine` (specs/Seen.antt).

use std::{
    collections::{BTreeMap, BTreeSet},
    fmt::Display,
};

use crate::{
    call::{Answer, Call, LIVE_CELLS, Lent, Loans, Machine, STATE_LENGTH, STORE_CELLS, code, kind},
    cell::{Cell, tag},
    driver::Driver,
    generate,
    image::{self, Code, MAX_BYTES, Part},
    snapshot::{Fault, Frame, FrameKind, Handler, Object, Outcome, Snapshot},
    step::{After, Step},
};

/// After so many ticks a row ends and the list goes on in the next, and a longer run of a random list is several runs: the checker takes only so many steps
/// for one equation.
const MOST_TICKS: u32 = 1_000;
/// To read a longer image takes too many steps, unless it is over the limit of all images.
const MOST_BYTES: usize = 11_000;
/// Messages before the one that is asked for, times their bytes: to find one with more before it may take too many steps.
const MOST_BEFORE: usize = 170;

const LONG: &str = "a load of a long image";
const DEEP: &str = "a text after long messages";

fn is_long(image: &[u8]) -> bool {
    (MOST_BYTES + 1..=MAX_BYTES).contains(&image.len())
}

/// Only a message that the page has: a missing one takes few steps.
fn is_deep(step: &Step, after: &After) -> bool {
    let Call::Text { value: Cell { tag: tag::MESSAGE, number, .. } } = step.call else { return false };
    let (before, start) = (number.saturating_sub(1) as usize, after.answer.start as usize);
    start < step.page.len() && before * start > MOST_BEFORE
}

/// Rows as text, and how many calls were left out and why.
#[derive(Default)]
pub struct Rows {
    text: String,
    lists: usize,
    loads: usize,
    rows: usize,
    calls: usize,
    ticks: u32,
    /// Equations of refused loads, each written once.
    refusals: BTreeSet<(String, u32)>,
    left_out: BTreeMap<&'static str, usize>,
}

/// A row in the making: calls after an accepted load, up to the next one.
struct Row {
    /// The number of the load.
    load: usize,
    sizes: String,
    /// What the last call of the row before left, if this one does not begin with the load.
    before: Option<String>,
    /// The calls, without the load.
    calls: Vec<String>,
    /// What each call left, and the load if the row begins with it.
    left: Vec<String>,
    ticks: u32,
}

impl Rows {
    /// The random list of a seed, all of whose calls are lent the same memory.
    pub fn random(&mut self, seed: u64) {
        let mut machine = Constant::default();
        generate::list(seed, &mut machine, &mut |_, _| ());
        self.list(&format!("seed {seed}"), &machine.list);
    }

    /// One list. A call that the definitions do not have is left out; if it changed anything, so are those after it, up to the next load.
    pub fn list(&mut self, name: &str, list: &[(Step, After)]) {
        let lent = list.iter().map(|(step, _)| step.loans).find(|loans| loans.state == STATE_LENGTH);
        let mut row: Option<Row> = None;
        self.lists += 1;
        self.text.push_str(&format!("-- {name}\n"));
        for (step, after) in list {
            let Answer { code, ticks, .. } = after.answer;
            let call = match call_term(step).filter(|_| lent.map(room) == Some(room(step.loans))) {
                _ if matches!(code, 6 | 7 | 10) => Err("refused with 6, 7 or 10"),
                _ if step.call != Call::Load && (1..=4).contains(&code) => Err("lent a refused image"),
                _ if step.call == Call::Load && code != 0 && is_long(&step.image) => Err(LONG),
                _ if is_deep(step, after) => Err(DEEP),
                None => Err("lent other memory, or an answer or list of no form"),
                Some(_) if row.is_none() && step.call != Call::Load => Err("after a call left out"),
                Some(call) => Ok(call),
            };
            row = match (call, row) {
                (Err(why), row) => {
                    *self.left_out.entry(why).or_default() += 1;
                    let changed = why != DEEP && (code == 0 || code >= 100 || ticks > 0);
                    if changed { self.end(row) } else { row }
                }
                (Ok(_), row) if step.call == Call::Load && code == 0 => {
                    self.end(row);
                    Some(self.begin(step, after))
                }
                (Ok(_), None) => self.refused(step, code),
                (Ok(call), Some(row)) => Some(self.add(row, call, step, after)),
            }
        }
        self.end(row);
    }

    fn equation(&mut self, name: &str, left: &str, right: &str) {
        self.text.push_str(&format!("{name} : {left} ≡ {right}\nunfolding every_rule\n{name} = refl\n\n"));
    }

    /// The equation of an accepted load, and the row that begins with its program.
    fn begin(&mut self, step: &Step, after: &After) -> Row {
        let (n, sizes) = (self.loads, sizes(step.loans));
        let (bytes, codes) = (bytes(&step.image), codes(&step.image));
        self.text.push_str(&format!("abbrev image{n} : List ℕ\nimage{n} = {bytes}\n\n"));
        self.text.push_str(&format!("abbrev program{n} : Program\nprogram{n} = program image{n} ({codes})\n\n"));
        self.loads += 1;
        if is_long(&step.image) {
            *self.left_out.entry(LONG).or_default() += 1;
        } else {
            self.equation(&format!("load{n}"), &format!("load image{n} {sizes}"), &format!("accepted program{n}"));
            self.calls += 1;
        }
        Row { load: n, sizes, before: None, calls: Vec::new(), left: vec![left_term(step, after)], ticks: 0 }
    }

    /// The row with one more call, or the next one if that made it long.
    fn add(&mut self, mut row: Row, call: String, step: &Step, after: &After) -> Row {
        let left = left_term(step, after);
        row.calls.push(call);
        row.left.push(left.clone());
        row.ticks += after.answer.ticks;
        if row.ticks < MOST_TICKS {
            return row;
        }
        let (load, sizes) = (row.load, row.sizes.clone());
        self.end(Some(row));
        Row { load, sizes, before: Some(left), calls: Vec::new(), left: Vec::new(), ticks: 0 }
    }

    fn end(&mut self, row: Option<Row>) -> Option<Row> {
        let Row { load, sizes, before, calls, left, ticks } = row.filter(|row| !row.left.is_empty())?;
        let list = list_of(&calls);
        let left: String = left.iter().map(|left| format!("    {left} ∷\n")).collect();
        let (seen, left) = match before {
            None => (format!("seen_by {sizes} ({list}) (accepted program{load})"), format!("accepted (\n{left}    [])")),
            Some(before) => {
                (format!("seen program{load} {sizes} ({list}) (world_of ({before}))"), format!("\n{left}    []"))
            }
        };
        self.equation(&format!("row{}", self.rows), &seen, &left);
        self.rows += 1;
        self.calls += calls.len();
        self.ticks += ticks;
        None
    }

    /// A load that is refused where nothing was loaded.
    fn refused(&mut self, step: &Step, code: u32) -> Option<Row> {
        let load = format!("load ({}) {}", bytes(&step.image), sizes(step.loans));
        self.calls += 1;
        if self.refusals.insert((load.clone(), code)) {
            self.equation(&format!("row{}", self.rows), &load, &format!("refused {code}"));
            self.rows += 1;
        }
        None
    }

    pub fn text(&self) -> String {
        format!("{PREAMBLE}\n{}", self.text)
    }

    /// How many rows there are, and what was left out.
    pub fn tally(&self) -> String {
        let Rows { lists, rows, calls, ticks, .. } = self;
        let mut text = format!("{lists} lists, {rows} rows, {calls} calls, {ticks} ticks");
        self.left_out.iter().for_each(|(why, times)| text.push_str(&format!("; {times} left out: {why}")));
        text
    }
}

const PREAMBLE: &str = "-- Written by `player rows`.
use Rattle.std.specs.Prelude.{◌≡◌, refl, List, [], ◌∷◌, true, false, ℕ, pos, negsuc}
use Rattle.fuel.specs.Fuels.{empty}
use Rattle.image.specs.Program.{Code}
use Rattle.image.specs.Records.{refused, accepted}
use Rattle.image.specs.declared.Capture.{Capture}
use Rattle.image.specs.declared.Constant.{Constant}
use Rattle.image.specs.declared.Op.{Op}
use Rattle.machine.specs.Values.{Program, cell, call_arguments, un_operator, bin_operator, meta_un_operator, meta_bin_operator, zero_divisor, lucia_error, lucia_panic}
use Rattle.machine.specs.Machine.{lucia, host, effect_callback, closure, list, continuation, running, returned, failed, unhandled}
use Rattle.machine.specs.Calls.{runs, asks, loads, start, answer, clear, text, bytes, set_global, get_global, set_builtin, get_builtin, call_with, perform, tail_call, tail_perform, return_it, error_with, panic_with, nothing, gives, part, load}
use Rattle.machine.specs.Seen.{seen, seen_by, leaves, world_of, sizes, fuel_with, handler, named, every_rule}

abbrev op : ℕ → ℕ → Op
op n x = record { number = n; operand = x }

abbrev captured : ℕ → ℕ → Capture
captured f i = record { from = f; index = i }

abbrev constant : ℕ → ℕ → ℕ → Constant
constant k p n = record { kind = k; place = p; size = n }

abbrev code : ℕ → ℕ → ℕ → ℕ → List Op → List ℕ → List Capture → List Constant → List ℕ → Code
code p v l s os gs us ks cs = record { params = p; variadic = v; locals = l; stack_size = s; opcodes = os; globals = gs; captures = us; constants = ks; codes = cs }

abbrev program : List ℕ → List Code → Program
program s cs = record { image = s; codes = cs }
";

fn list_of<T: Display>(items: impl IntoIterator<Item = T>) -> String {
    let mut text: String = items.into_iter().map(|item| format!("{item} ∷ ")).collect();
    text.push_str("[]");
    text
}

fn bytes(bytes: &[u8]) -> String {
    list_of(bytes)
}

/// The codes of an accepted image.
fn codes(image: &[u8]) -> String {
    let program = image::parse(image).expect("the image is accepted");
    let constants = image::constants(image);
    list_of(program.codes.iter().zip(&constants).map(|(code, constants)| code_term(code, constants)))
}

fn code_term(code: &Code, constants: &[(u16, Part)]) -> String {
    let Code { params, variadic, locals, stack_size, opcodes, globals, captures, const_codes, .. } = code;
    let opcodes = list_of(opcodes.iter().map(|(number, operand)| format!("op {number} {operand}")));
    let captures = list_of(captures.iter().map(|(from, index)| format!("captured {from} {index}")));
    let constants =
        list_of(constants.iter().map(|(kind, part)| format!("constant {kind} {} {}", part.start, part.len)));
    let (variadic, globals, codes) = (u8::from(*variadic), list_of(globals), list_of(const_codes));
    format!(
        "code {params} {variadic} {locals} {stack_size} ({opcodes}) ({globals}) ({captures}) ({constants}) ({codes})"
    )
}

/// Cells of live stack and store that are used.
fn room(loans: Loans) -> (usize, usize) {
    ((loans.live / 16).min(LIVE_CELLS), (loans.store / 16).min(STORE_CELLS))
}

fn sizes(loans: Loans) -> String {
    let (live, store) = room(loans);
    format!("(sizes {live} {store})")
}

fn cell(cell: Cell) -> String {
    format!("cell {} {} {}", cell.tag, cell.number, cell.payload)
}

fn cells(cells: &[Cell]) -> String {
    format!("({})", list_of(cells.iter().map(|&value| cell(value))))
}

/// Of a stack, whose top is written first.
fn stack(values: &[Cell]) -> String {
    cells(&values.iter().rev().copied().collect::<Vec<_>>())
}

/// The values of a list as it is lent, if it is one.
fn lent_cells(bytes: &[u8]) -> Option<String> {
    let list: Vec<Cell> =
        bytes.chunks(16).map(|part| (part.len() == 16).then(|| Cell::from_bytes(part))).collect::<Option<_>>()?;
    Some(cells(&list))
}

fn fuel(bytes: &[u8]) -> String {
    let number = i32::from_le_bytes([bytes[0], bytes[1], bytes[2], bytes[3]]);
    let integer = if number < 0 { format!("negsuc {}", -1 - number) } else { format!("pos {number}") };
    format!("(fuel_with ({integer}) {})", bytes[4] != 0)
}

/// The call as a term, if the definitions have it.
fn call_term(step: &Step) -> Option<String> {
    let lent_fuel = || (step.fuel.len() == 5).then(|| fuel(&step.fuel));
    Some(match &step.call {
        Call::Load => format!("loads ({})", bytes(&step.image)),
        Call::Start { function, args } => format!("asks (start ({}) {})", cell(*function), lent_cells(args)?),
        Call::Run { ticks } => format!("runs {ticks} {}", lent_fuel()?),
        Call::Answer { kind, word, subject, args, handlers } => {
            let returned = answer_term(*kind, *subject, args, handlers)?;
            format!("asks (answer {word} {} ({returned}))", lent_fuel()?)
        }
        Call::Clear => "asks clear".into(),
        Call::Text { value } => format!("asks (text ({}) ({}))", bytes(&step.page), cell(*value)),
        Call::Bytes { value } => format!("asks (bytes ({}))", cell(*value)),
        Call::SetGlobal { number, value } => format!("asks (set_global {number} ({}))", cell(*value)),
        Call::GetGlobal { number } => format!("asks (get_global {number})"),
        Call::SetBuiltin { number, value } => format!("asks (set_builtin {number} ({}))", cell(*value)),
        Call::GetBuiltin { number } => format!("asks (get_builtin {number})"),
    })
}

/// What the host answers; a list that its kind does not have is not modelled.
fn answer_term(kind: u32, subject: Cell, args: &[u8], handlers: &[u8]) -> Option<String> {
    let name =
        ["call_with", "perform", "tail_call", "tail_perform", "return_it", "error_with", "panic_with"].get(kind as usize)?;
    let (args, handlers) = (lent_cells(args)?, lent_cells(handlers)?);
    let subject = cell(subject);
    match kind {
        kind::CALL => Some(format!("{name} ({subject}) {args} {handlers}")),
        kind::PERFORM..=kind::TAIL_PERFORM => (handlers == "([])").then(|| format!("{name} ({subject}) {args}")),
        _ => (handlers == "([])" && args == "([])").then(|| format!("{name} ({subject})")),
    }
}

/// What the call left: answer, steps, fuel, value or part, world.
fn left_term(step: &Step, after: &After) -> String {
    let Answer { code, ticks, value, from, start, len } = after.answer;
    let is_accepted = code == 0 || code > 100;
    let (steps, left_fuel) = match step.call {
        Call::Run { .. } => (ticks, fuel(&after.fuel)),
        Call::Answer { .. } => (is_accepted.into(), fuel(&after.fuel)),
        Call::Load => (0, "empty".into()),
        _ => (is_accepted.into(), "empty".into()),
    };
    let given = match step.call {
        Call::Text { .. } | Call::Bytes { .. } if is_accepted => format!("(part {from} {start} {len})"),
        Call::Load | Call::GetGlobal { .. } | Call::GetBuiltin { .. } if is_accepted => {
            format!("(gives ({}))", cell(value))
        }
        _ => "nothing".into(),
    };
    let Snapshot { frames, result, wait, left, store, globals, builtins, .. } = &after.snapshot;
    let objects = list_of(store.iter().map(object));
    let (globals, builtins) = (names(globals), names(builtins));
    let result = outcome(result);
    format!(
        "leaves {code} {steps} {left_fuel} {given} ({}) ({result}) ({objects}) ({globals}) ({builtins}) {wait} {left}",
        frame_list(frames)
    )
}

fn frame_list(frames: &[Frame]) -> String {
    list_of(frames.iter().rev().map(frame))
}

fn frame(frame: &Frame) -> String {
    let Frame { kind, locals, handlers, stack: values } = frame;
    let values = stack(values);
    let effects = cells(&handlers.iter().map(|handler| handler.effect).collect::<Vec<_>>());
    match kind {
        FrameKind::Lucia { closure, place } => {
            let handlers = list_of(handlers.iter().map(handler));
            format!("lucia {closure} {place} {} {values} ({handlers})", cells(locals))
        }
        FrameKind::Host { number, word } => format!("host {number} {word} {values} {effects}"),
        FrameKind::Effect { effect } => format!("effect_callback ({}) {values} {effects}", cell(*effect)),
    }
}

fn handler(handler: &Handler) -> String {
    format!("handler ({}) {} {}", cell(handler.effect), handler.target, handler.stack_size)
}

fn outcome(result: &Outcome) -> String {
    match result {
        Outcome::None => "running".into(),
        Outcome::Value(value) => format!("returned ({})", cell(*value)),
        Outcome::Error(fault) => format!("failed ({})", error(fault)),
        Outcome::Effect { effect, args } => format!("unhandled ({}) {}", cell(*effect), cells(args)),
    }
}

fn error(fault: &Fault) -> String {
    match fault {
        Fault::CallArguments { start, end, given } => {
            assert!(end.is_none_or(|end| end == *start), "an upper end of its own");
            format!("call_arguments {start} {} {given}", end.is_none())
        }
        Fault::UnOperator { opcode, operand, of } => format!("un_operator {opcode} {operand} {of}"),
        Fault::BinOperator { opcode, operand, of: [a, b] } => format!("bin_operator {opcode} {operand} {a} {b}"),
        Fault::MetaUnOperator { name, of } => format!("meta_un_operator {name} {of}"),
        Fault::MetaBinOperator { name, of: [a, b] } => format!("meta_bin_operator {name} {a} {b}"),
        Fault::ZeroDivisor => "zero_divisor".into(),
        Fault::LuciaError(value) => format!("lucia_error ({})", cell(*value)),
        Fault::LuciaPanic(value) => format!("lucia_panic ({})", cell(*value)),
    }
}

fn object(object: &Object) -> String {
    match object {
        Object::Closure { code, upvalues } => format!("closure {code} {}", cells(upvalues)),
        Object::List(items) => format!("list {}", cells(items)),
        Object::Continuation(frames) => format!("continuation ({})", frame_list(frames)),
    }
}

/// Globals or builtins that are not null.
fn names(values: &[Cell]) -> String {
    let set = values.iter().enumerate().filter(|(_, value)| **value != Cell::NULL);
    list_of(set.map(|(number, value)| format!("named {number} ({})", cell(*value))))
}

/// A driver that is lent the same memory for each call, plays a long run as several, and keeps its steps.
#[derive(Default)]
struct Constant {
    driver: Driver,
    loans: Option<Loans>,
    list: Vec<(Step, After)>,
}

impl Constant {
    fn play(&mut self, lent: &mut Lent<'_>, call: Call) -> Answer {
        let loans = *self.loans.get_or_insert(Loans { state: STATE_LENGTH, ..lent.loans });
        let (fuel, page) = (lent.fuel.to_vec(), lent.page.into());
        let step = Step { image: lent.image.into(), loans, fuel, page, call };
        let after = step.play(&mut self.driver);
        lent.fuel.copy_from_slice(&after.fuel);
        let answer = after.answer;
        self.list.push((step, after));
        answer
    }
}

impl Machine for Constant {
    fn call(&mut self, mut lent: Lent<'_>, call: &Call) -> Answer {
        let Call::Run { ticks } = *call else { return self.play(&mut lent, call.clone()) };
        let mut taken = 0;
        loop {
            let part = MOST_TICKS.min(ticks - taken);
            let answer = self.play(&mut lent, Call::Run { ticks: part });
            taken += answer.ticks;
            if answer.code != code::PAUSED || taken == ticks {
                return Answer { ticks: taken, ..answer };
            }
        }
    }

    fn snapshot(&self) -> Snapshot {
        self.driver.snapshot()
    }
}

#[cfg(test)]
mod tests {
    use super::*;
    use crate::{assemble::assemble, case, step::fuel_bytes};

    fn rows(lines: &str) -> Rows {
        let text =
            format!("case P1: b\nimage {{ code main() {{ LoadConst null  Return }} }}\nfuel 68\nload\n! x\n{lines}");
        let cases = case::parse("a.case", &text).unwrap_or_else(|malformed| panic!("{malformed}"));
        let mut list = Vec::new();
        let played = cases[0].play(&mut Driver::new(), &mut |step, after| list.push((step.clone(), after.clone())));
        assert!(played.is_ok());
        let mut rows = Rows::default();
        rows.list("P1", &list);
        rows
    }

    #[test]
    fn a_list_is_a_row() {
        let rows = rows("start closure @0\nrun 100");
        assert_eq!(rows.tally(), "1 lists, 1 rows, 3 calls, 2 ticks");
        let last = "leaves 100 2 (fuel_with (pos 1) false) nothing ([]) (returned (cell 0 0 0)) (closure 0 ([]) ∷ []) ([]) ([]) false 64 ∷";
        assert!(rows.text().contains(last), "{}", rows.text());
    }

    #[test]
    fn a_long_list_is_several_rows() {
        let rows = rows("image { code main() { Jump 0 } }\nload\nstart closure @0\nrun 1000\nrun 1");
        assert_eq!(rows.tally(), "1 lists, 3 rows, 5 calls, 1001 ticks");
        assert!(rows.text().contains("(runs 1 (fuel_with (pos 68) false) ∷ []) (world_of (leaves 102 1000 "));
    }

    #[test]
    fn a_long_run_is_several_runs() {
        let mut machine = Constant::default();
        let image = assemble("code main() { Jump 0 }").unwrap_or_else(|error| panic!("{error}"));
        let mut fuel = fuel_bytes(68, 0);
        let start = Call::Start { function: Cell::new(tag::CLOSURE, 0, 0), args: Vec::new() };
        let answers = [Call::Load, start, Call::Run { ticks: 2_500 }].map(|call| {
            let lent = Lent { image: &image, loans: Loans::default(), fuel: &mut fuel, page: &[] };
            machine.call(lent, &call)
        });
        assert_eq!(answers[2], Answer { ticks: 2_500, ..Answer::of(code::PAUSED) });
        let ticks: Vec<u32> = machine.list.iter().map(|(_, after)| after.answer.ticks).collect();
        assert_eq!(ticks, [0, 0, 1_000, 1_000, 500]);
    }

    #[test]
    fn a_text_after_long_messages_is_left_out_alone() {
        let page = r"arguments\n".repeat(6);
        let rows = rows(&format!("page \"{page}\"\ntext message 6\ntext message 5\nstart closure @0"));
        assert_eq!(rows.tally(), format!("1 lists, 1 rows, 3 calls, 0 ticks; 1 left out: {DEEP}"));
    }

    #[test]
    fn what_the_definitions_do_not_have_is_left_out() {
        let form = "lent other memory, or an answer or list of no form";
        let tally = |lines: &str| rows(lines).tally();
        assert_eq!(
            tally("answer kind 9 null\nrun 1"),
            format!("1 lists, 1 rows, 2 calls, 0 ticks; 1 left out: {form}")
        );
        assert_eq!(
            tally("loans state bytes 1\nrun 1"),
            "1 lists, 1 rows, 1 calls, 0 ticks; 1 left out: refused with 6, 7 or 10"
        );
        let after = "1 lists, 1 rows, 1 calls, 0 ticks; 1 left out: after a call left out; 1 left out: ";
        assert_eq!(tally("loans live 9\nstart closure @0\nloans live 4096\nrun 1"), format!("{after}{form}"));
    }
}
