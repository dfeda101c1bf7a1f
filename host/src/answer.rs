//! What a call answers: numbers with their words.

use std::{error, fmt};

/// What an accepted run or answer came to.
#[derive(Clone, Copy, PartialEq, Eq, Hash, Debug)]
pub enum Answer {
    /// 100: there is a result, or there are no frames.
    Done,
    /// 101: fuel is not above 0, or its mark is set; a further run takes one more step.
    OutOfFuel,
    /// 102: all ticks are taken; the next run goes on in the same slice.
    Paused,
    /// 103: a host callback is on top and waits for an answer.
    Host,
    /// 104: the host's answer was taken, and fuel is left to run on.
    GoOn,
}

impl Answer {
    /// The number in the header.
    pub fn number(self) -> u32 {
        match self {
            Answer::Done => 100,
            Answer::OutOfFuel => 101,
            Answer::Paused => 102,
            Answer::Host => 103,
            Answer::GoOn => 104,
        }
    }

    /// What it means, in a few words.
    pub fn words(self) -> &'static str {
        match self {
            Answer::Done => "done",
            Answer::OutOfFuel => "out of fuel",
            Answer::Paused => "paused: all ticks are taken",
            Answer::Host => "host: a callback waits for an answer",
            Answer::GoOn => "go on",
        }
    }

    /// The answer of this number; any other number is a refusal.
    pub(crate) fn of(number: u32) -> Result<Answer, Refusal> {
        let all = [Answer::Done, Answer::OutOfFuel, Answer::Paused, Answer::Host, Answer::GoOn];
        all.into_iter().find(|answer| answer.number() == number).ok_or(Refusal::of(number))
    }
}

impl fmt::Display for Answer {
    fn fmt(&self, f: &mut fmt::Formatter<'_>) -> fmt::Result {
        f.write_str(self.words())
    }
}

/// Why a call is refused; it then has changed nothing, but for the ticks that a refused run took.
#[derive(Clone, Copy, PartialEq, Eq, Hash, Debug)]
#[non_exhaustive]
pub enum Refusal {
    /// 1: image under 6 or over 65,536 bytes.
    ImageSize,
    /// 2: image with a record past its parent, bytes left over, a wrong kind or size.
    ImageStructure,
    /// 3: image with a number against its rules, or text that is not UTF-8.
    ImageNumber,
    /// 4: image with codes nested over 8 deep, or over 256 codes.
    ImageCodes,
    /// 5: a value, list or number from the host that can't be taken.
    BadValue,
    /// 6: a state block or fuel of another length.
    BadLoan,
    /// 7: memory that no load could lead to.
    NotInForm,
    /// 10: nothing is loaded.
    NotLoaded,
    /// 11: a start with frames or a result, an answer without a wait, a run during one.
    OutOfTurn,
    /// 12: the script takes more values than its stack has, or has a `Copy` or `Swap` of 0.
    FewValues,
    /// 13: a 257th frame.
    ManyFrames,
    /// 14: the live stack is too small.
    LiveFull,
    /// 15: the store is too small.
    StoreFull,
    /// 16: a 17th handler in a frame.
    ManyHandlers,
    /// A number that this crate does not know.
    Other(u32),
}

/// All refusals with number and words.
const REFUSALS: [(Refusal, u32, &str); 14] = [
    (Refusal::ImageSize, 1, "the image has under 6 or over 65,536 bytes"),
    (
        Refusal::ImageStructure,
        2,
        "the image has a record past its parent, bytes left over, a wrong kind or a wrong size",
    ),
    (Refusal::ImageNumber, 3, "the image has a number against its rules, or text that is not UTF-8"),
    (Refusal::ImageCodes, 4, "the image has codes nested over 8 deep, or over 256 codes"),
    (Refusal::BadValue, 5, "a value, list or number from the host can't be taken"),
    (Refusal::BadLoan, 6, "the state block is not of 8,256 bytes, or fuel not of 5"),
    (Refusal::NotInForm, 7, "memory is not in form"),
    (Refusal::NotLoaded, 10, "nothing is loaded"),
    (Refusal::OutOfTurn, 11, "out of turn"),
    (Refusal::FewValues, 12, "the script takes more values than its stack has, or has a Copy or Swap of 0"),
    (Refusal::ManyFrames, 13, "a 257th frame"),
    (Refusal::LiveFull, 14, "the live stack is too small"),
    (Refusal::StoreFull, 15, "the store is too small"),
    (Refusal::ManyHandlers, 16, "a 17th different handler in a frame"),
];

impl Refusal {
    /// The number in the header.
    pub fn number(self) -> u32 {
        match self {
            Refusal::Other(number) => number,
            _ => REFUSALS.iter().find(|&&(refusal, ..)| refusal == self).map_or(0, |&(_, number, _)| number),
        }
    }

    /// What it means, in a few words.
    pub fn words(self) -> &'static str {
        let found = REFUSALS.iter().find(|&&(refusal, ..)| refusal == self);
        found.map_or("a number that this host does not know", |&(.., words)| words)
    }

    /// The refusal of this number.
    pub fn of(number: u32) -> Refusal {
        let found = REFUSALS.iter().find(|&&(_, known, _)| known == number);
        found.map_or(Refusal::Other(number), |&(refusal, ..)| refusal)
    }

    /// `Ok` for 0, else the refusal of this number.
    pub(crate) fn unless_accepted(code: u32) -> Result<(), Refusal> {
        if code == 0 { Ok(()) } else { Err(Refusal::of(code)) }
    }
}

impl fmt::Display for Refusal {
    fn fmt(&self, f: &mut fmt::Formatter<'_>) -> fmt::Result {
        write!(f, "refused with {}: {}", self.number(), self.words())
    }
}

impl error::Error for Refusal {}

/// What a run came to. A refused run keeps the ticks that it took, and what they did.
#[derive(Clone, Copy, PartialEq, Eq, Debug)]
#[must_use]
pub struct Outcome {
    /// Why the run stopped.
    pub answer: Result<Answer, Refusal>,
    /// Opcodes and effect callbacks carried out.
    pub ticks: u32,
}

#[cfg(test)]
mod tests {
    use super::*;

    #[test]
    fn every_number_comes_back() {
        for number in 0..=200 {
            assert_eq!(Refusal::of(number).number(), number);
            assert!(Answer::of(number).map_or_else(Refusal::number, Answer::number) == number);
        }
        assert_eq!((100..=104).filter(|&number| Answer::of(number).is_ok()).count(), 5);
        assert_eq!(Refusal::of(17), Refusal::Other(17));
        assert_eq!(Refusal::LiveFull.to_string(), "refused with 14: the live stack is too small");
    }
}
