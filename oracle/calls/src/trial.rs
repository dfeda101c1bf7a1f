//! One call, carried out by ours and by the model from equal memory.

use std::fs;

use player::{
    call::{Answer, Call, Loans},
    cell::Cell,
    image::Program,
    plain::{self, Memory},
    random::Random,
};

use crate::ours;

/// A loan with bytes around it that no call may touch.
#[derive(Clone, PartialEq, Eq)]
struct Loan {
    bytes: Vec<u8>,
    start: usize,
    len: usize,
}

impl Loan {
    /// A loan that begins with these bytes, as far as it goes; what is behind them is random. Without bytes around it a tool that watches memory sees the
    /// first byte read outside.
    fn new(random: &mut Random, content: &[u8], len: usize) -> Loan {
        let [start, behind] = if random.chance(1, 2) { [0, 0] } else { [random.below(33), 1 + random.below(32)] };
        let mut bytes = vec![0; start + len + behind];
        for chunk in bytes.chunks_mut(8) {
            chunk.copy_from_slice(&random.next_u64().to_le_bytes()[..chunk.len()]);
        }
        let content = &content[..content.len().min(len)];
        bytes[start..start + content.len()].copy_from_slice(content);
        Loan { bytes, start, len }
    }

    fn lent(&mut self) -> &mut [u8] {
        &mut self.bytes[self.start..self.start + self.len]
    }

    fn shown(&self) -> &[u8] {
        &self.bytes[self.start..self.start + self.len]
    }

    fn around(&self) -> [&[u8]; 2] {
        [&self.bytes[..self.start], &self.bytes[self.start + self.len..]]
    }
}

/// State block, live stack and store as they are lent.
#[derive(Clone, PartialEq, Eq)]
pub struct Lending {
    loans: [Loan; 3],
}

impl Lending {
    pub fn new(random: &mut Random, content: &[Vec<u8>; 3], loans: Loans) -> Lending {
        let [state, live, store] = content;
        let parts = [(state, loans.state), (live, loans.live), (store, loans.store)];
        Lending { loans: parts.map(|(content, len)| Loan::new(random, content, len)) }
    }

    pub fn memory(&mut self) -> Memory<'_> {
        let [state, live, store] = &mut self.loans;
        Memory { state: state.lent(), live: live.lent(), store: store.lent() }
    }

    /// State block, live stack and store.
    pub fn shown(&self) -> [&[u8]; 3] {
        self.loans.each_ref().map(Loan::shown)
    }

    /// Whether the bytes around the loans are the same.
    pub fn same_around(&self, other: &Lending) -> bool {
        self.loans.iter().zip(&other.loans).all(|(one, other)| one.around() == other.around())
    }
}

/// A call with an image and the program that it holds, or its refusal.
pub struct Trial<'a> {
    pub image: &'a [u8],
    pub program: Result<&'a Program, u32>,
    pub page: &'a [u8],
    pub call: &'a Call,
}

impl Trial<'_> {
    /// Leaves memory as ours leaves it. If answers and all bytes are equal, the answer; else where they differ.
    pub fn run(&self, lending: &mut Lending) -> Result<Answer, String> {
        let before = lending.clone();
        let mut right = before.clone();
        let expected = plain::call(self.program, &mut right.memory(), self.page, self.call);
        let answer = ours::call(self.image, &mut lending.memory(), &mut [], self.page, self.call);
        if answer == expected && *lending == right {
            return Ok(answer);
        }
        let mut lines = vec![format!("{:?}", self.call), format!("ours {answer:?}"), format!("right {expected:?}")];
        for (name, index) in [("state", 0), ("live", 1), ("store", 2)] {
            let [ours, right] = [&*lending, &right].map(|lending| &lending.loans[index]);
            let places = ours.bytes.iter().zip(&right.bytes).enumerate().filter(|(_, (ours, right))| ours != right);
            lines.extend(places.take(8).map(|(at, (byte, right))| {
                format!("{name} byte {}: {byte} where {right} is right", at as isize - ours.start as isize)
            }));
        }
        Err(self.keep(&before, &lines.join("\n")))
    }

    /// Keeps what the call was lent in a file.
    pub fn keep(&self, before: &Lending, difference: &str) -> String {
        let mut text = format!("{difference}\n\nimage {:02x?}\npage {:02x?}\n", self.image, self.page);
        for (name, bytes) in ["state", "live", "store"].iter().zip(before.shown()) {
            text += &format!("\n{name} of {} bytes; cells that are not null:\n", bytes.len());
            for (at, cell) in bytes.chunks_exact(16).map(Cell::from_bytes).enumerate() {
                if cell != Cell::NULL && at < 5_000 {
                    text += &format!("{at:>6} {} {} {}\n", cell.tag, cell.number, cell.payload);
                }
            }
        }
        match fs::write("difference.txt", text) {
            Ok(()) => format!("{difference}\nkept in difference.txt"),
            Err(error) => format!("{difference}\nnot kept: {error}"),
        }
    }
}
