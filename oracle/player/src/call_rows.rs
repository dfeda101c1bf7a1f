//! What `crates/calls_replay` is asked, and what the Rust answers: the cases, and random lists of small programs, on one memory of a fixed length.

use crate::{
    call::{Answer, Call, Lent, Loans, Machine, STATE_LENGTH, code},
    case,
    cell::Cell,
    driver::{Driver, refusal},
    generate,
    memory::write,
    record::{lists, numbers},
    snapshot::Snapshot,
    step::{After, Step},
};

/// The memory of the program: short, so that its limits are met.
const LOANS: Loans = Loans { state: STATE_LENGTH, live: 32_768, store: 1_024 };
/// Lengths of its buffers: image, page, arguments, handlers and fuel.
const BUFFERS: [usize; 5] = [65_600, 256, 65_600, 1_024, 16];
const HEAD: usize = 64;
/// The number of a question that changes a byte of the state block.
const POKE: u32 = 11;
/// Random lists have images up to this length, and come until the questions are so many bytes.
const SHORT_IMAGE: usize = 1_500;
const BYTES: usize = 700_000;

const CASES: [&str; 8] = [
    include_str!("../../cases/board.case"),
    include_str!("../../cases/effects.case"),
    include_str!("../../cases/host.case"),
    include_str!("../../cases/images.case"),
    include_str!("../../cases/refusals.case"),
    include_str!("../../cases/slices.case"),
    include_str!("../../cases/values.case"),
    include_str!("../../cases/via.case"),
];

/// What no case and hardly a random list meets with this memory.
fn long_lists() -> String {
    let values = |count: usize| vec!["1"; count].join(", ");
    let (live, store) = (values(LOANS.live / 16), values(LOANS.store / 16));
    format!(
        "case long:\nimage {{ code main(0, ...) {{ Jump 0 }} }}\nload\nstart callback 1 word 1 ({live})\n\
         start closure @0 ({store})\nget_global 256\nstart callback 1 word 1\nrun 0\n\
         answer tail_call callback 1 word 1 ({live})\n= answer refused 14\nfuel bytes 00000000\nrun 1"
    )
}

/// Questions and answers.
#[derive(Default)]
pub struct Rows {
    pub questions: Vec<u8>,
    pub answers: Vec<u8>,
    /// The answers that were given, by call and code.
    pub given: std::collections::BTreeSet<(u64, u32)>,
    /// The first bytes of the state block.
    head: Vec<u8>,
}

/// The driver with the program's memory, whatever is lent.
struct Fixed(Driver);

impl Machine for Fixed {
    fn call(&mut self, lent: Lent<'_>, call: &Call) -> Answer {
        self.0.call(Lent { loans: LOANS, ..lent }, call)
    }

    fn snapshot(&self) -> Snapshot {
        self.0.snapshot()
    }
}

pub fn rows() -> Rows {
    let mut rows = Rows { head: vec![0; HEAD], ..Rows::default() };
    let texts = CASES.iter().map(|text| text.to_string()).chain([long_lists()]);
    for case in texts.flat_map(|text| case::parse("", &text).expect("the case files are well-formed")) {
        // What a case expects was met with its own loans, and is not asked here.
        let mut list = Vec::new();
        let _ = case.play(&mut Fixed(Driver::new()), &mut |step, after| list.push((step.clone(), after.clone())));
        rows.list(&list);
    }
    let mut seeds = 0..;
    while rows.questions.len() < BYTES {
        let seed = seeds.next().unwrap_or_default();
        for of in [generate::list, generate::tight_list] {
            let mut list = Vec::new();
            of(seed, &mut Fixed(Driver::new()), &mut |step, after| list.push((step.clone(), after.clone())));
            if list.iter().all(|(step, _)| step.image.len() <= SHORT_IMAGE) {
                rows.list(&list);
            }
        }
    }
    rows
}

impl Rows {
    /// A list from nothing loaded on, up to a call that the program's buffers do not hold. After its last call memory is put out of form and asked once more.
    fn list(&mut self, list: &[(Step, After)]) {
        self.poke(0, 0);
        let fits = |step: &Step| parts(step).iter().zip(BUFFERS).all(|(part, most)| part.len() <= most);
        let known = list.iter().take_while(|(step, _)| fits(step));
        let last = known.inspect(|(step, after)| self.call(step, after)).last();
        let Some((step, after)) = last else { return };
        if !after.snapshot.loaded || step.call == Call::Load {
            return;
        }
        // The number of the turn's cell is 0 or 1: with 2 nothing but a load is accepted.
        let byte = self.head[20];
        self.poke(20, 2);
        let number = match (after.answer.code, &step.call) {
            // These come before 7.
            (number @ (1..=4 | 6), _) => number,
            _ => refusal::FORM,
        };
        let refused = After { answer: Answer::of(number), fuel: step.fuel.clone(), snapshot: after.snapshot.clone() };
        let head = self.head.clone();
        self.ask(step, &refused, head);
        self.poke(20, byte);
    }

    fn call(&mut self, step: &Step, after: &After) {
        if after.snapshot.loaded {
            self.head = write(&after.snapshot).bytes()[0][..HEAD].to_vec();
        }
        let head = self.head.clone();
        self.ask(step, after, head);
    }

    fn ask(&mut self, step: &Step, after: &After, head: Vec<u8>) {
        let (number, small, word, value) = numbers(&step.call);
        self.given.insert((number, after.answer.code));
        let lengths = parts(step).map(|part| part.len() as u32);
        self.question(number as u32, small as u32, lengths, value, word);
        parts(step).iter().for_each(|part| self.questions.extend(*part));
        let Answer { code, ticks, value, from, start, len } = after.answer;
        self.answer([code, ticks | from], [value.low() | start, value.high() | len], &after.fuel, &head);
    }

    /// A byte of the state block becomes another.
    fn poke(&mut self, at: usize, byte: u8) {
        self.question(POKE, 0, [0; 5], Cell::new(at as u32, 0, byte.into()), 0);
        self.head[at] = byte;
        let head = self.head.clone();
        self.answer([code::ACCEPTED, 0], [0, 0], &[], &head);
    }

    fn question(&mut self, call: u32, small: u32, lengths: [u32; 5], value: Cell, word: u64) {
        let numbers = [call, small].into_iter().chain(lengths).chain([0]);
        self.questions.extend(numbers.flat_map(u32::to_le_bytes));
        self.questions.extend([value.low(), value.high(), word, 0].into_iter().flat_map(u64::to_le_bytes));
    }

    fn answer(&mut self, small: [u32; 2], large: [u64; 2], fuel: &[u8], head: &[u8]) {
        self.answers.extend(small.into_iter().flat_map(u32::to_le_bytes));
        self.answers.extend(large.into_iter().flat_map(u64::to_le_bytes));
        let mut buffer = [0; 16];
        buffer[..fuel.len()].copy_from_slice(fuel);
        self.answers.extend(buffer);
        self.answers.extend(head);
    }
}

/// Image, page, arguments, handlers and fuel.
fn parts(step: &Step) -> [&[u8]; 5] {
    let [args, handlers] = lists(&step.call);
    [&step.image, &step.page, args, handlers, &step.fuel]
}

#[cfg(test)]
mod tests {
    use super::rows;

    #[test]
    fn every_answer_of_every_call_is_asked_for() {
        let given = rows().given;
        let all: [(u64, &[u32]); 11] = [
            (0, &[0, 1, 2, 3, 4]),
            (1, &[0, 5, 7, 10, 11, 14, 15]),
            (2, &[6, 7, 10, 11, 12, 13, 14, 15, 16, 100, 101, 102, 103]),
            (3, &[5, 7, 11, 14, 15, 16, 101, 104]),
            (4, &[0, 7]),
            (5, &[0, 5]),
            (6, &[0, 5]),
            (7, &[0, 5]),
            (8, &[0, 5]),
            (9, &[0, 5]),
            (10, &[0, 5]),
        ];
        let wanted = all.iter().flat_map(|(call, codes)| codes.iter().map(|&code| (*call, code)));
        let missing: Vec<(u64, u32)> = wanted.filter(|pair| !given.contains(pair)).collect();
        assert_eq!(missing, [], "calls with answers that were never given");
    }
}
