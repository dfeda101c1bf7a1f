//! Start, run and answer on lent bytes of any content: ours beside the Rust, which is set to what the bytes hold.

use player::{
    call::{Answer, Call, LIVE_CELLS, Lent, Loans, Machine, STATE_LENGTH, code},
    driver::Driver,
    hold::Ready,
    image::{self, Program},
    memory::read,
    snapshot::{Outcome, Snapshot},
};

use crate::{fence, trial::Lending};

/// An image with its program and its Rust, or its refusal.
pub struct Image<'a> {
    pub bytes: &'a [u8],
    pub program: Result<(&'a Program, &'a Ready), u32>,
}

/// An image of its own.
pub struct Parsed {
    bytes: Vec<u8>,
    program: Result<(Program, Ready), u32>,
}

impl Parsed {
    pub fn new(bytes: Vec<u8>) -> Parsed {
        let program = image::parse(&bytes).map(|program| {
            let ready = Ready::new(&bytes, program.clone());
            (program, ready)
        });
        Parsed { bytes, program }
    }

    pub fn image(&self) -> Image<'_> {
        let program = self.program.as_ref().map_err(|&number| number);
        Image { bytes: &self.bytes, program: program.map(|(program, ready)| (program, ready)) }
    }
}

/// What a call must come to.
pub enum Right {
    /// Refused, so that nothing changes.
    Refused(u32),
    Left {
        answer: Answer,
        fuel: Vec<u8>,
        snapshot: Snapshot,
    },
    /// The Rust can't hold such a state (`player/src/hold.rs`); memory must be left in form.
    Unknown,
}

/// What the call must do to memory that holds these bytes.
pub fn right(image: &Image, [state, live, store]: [&[u8]; 3], fuel: &[u8], page: &[u8], call: &Call) -> Right {
    let charges = matches!(call, Call::Run { .. } | Call::Answer { .. });
    if state.len() != STATE_LENGTH || charges && fuel.len() != 5 {
        return Right::Refused(6);
    }
    let (program, ready) = match image.program {
        Ok(known) => known,
        Err(number) => return Right::Refused(number),
    };
    let before = match read(program, state, live, store) {
        Ok(before) => before,
        Err(number) => return Right::Refused(number),
    };
    let Some(mut driver) = Driver::holding(ready, &before) else { return Right::Unknown };
    let mut fuel = fuel.to_vec();
    let loans = Loans { state: state.len(), live: live.len(), store: store.len() };
    let answer = driver.call(Lent { image: image.bytes, loans, fuel: &mut fuel, page }, call);
    if is_refused(call, answer.code) {
        return Right::Refused(answer.code);
    }
    // With a result there nothing more happens, and the Rust holds an error in place of another.
    let snapshot = if before.result == Outcome::None { driver.snapshot() } else { before };
    Right::Left { answer, fuel, snapshot }
}

/// Refused as a whole; a run that is refused at an opcode is not.
fn is_refused(call: &Call, number: u32) -> bool {
    let is_midway = matches!(call, Call::Run { .. }) && (12..=16).contains(&number);
    (1..code::DONE).contains(&number) && !is_midway
}

/// Carries the call out by ours and compares; gives the answer, and whether the Rust could be asked.
pub fn compare(
    image: &Image,
    lending: &mut Lending,
    fuel: &[u8],
    page: &[u8],
    call: &Call,
) -> Result<(Answer, bool), String> {
    let before = lending.clone();
    let right = right(image, before.shown(), fuel, page, call);
    let mut lent_fuel = fuel.to_vec();
    let at_end = !lending.shown()[2].len().is_multiple_of(4);
    let answer = fence::call(image.bytes, &mut lending.memory(), &mut lent_fuel, page, call, at_end);
    let known = !matches!(right, Right::Unknown);
    if let Right::Refused(number) = right
        && answer != Answer::of(number)
    {
        return Err(format!("{call:?}\nours {answer:?}\nrefused {number} is right"));
    }
    if is_refused(call, answer.code) {
        if *lending != before || lent_fuel != fuel {
            return Err(format!("{call:?}\nours {answer:?}, and something was written"));
        }
        if known && !matches!(right, Right::Refused(_)) {
            return Err(format!("{call:?}\nours {answer:?}, and it is not to be refused"));
        }
        return Ok((answer, known));
    }
    check_around(&before, lending)?;
    let Ok((program, _)) = image.program else { return Err(format!("ours {answer:?} with a refused image")) };
    let [state, live, store] = lending.shown();
    let held = read(program, state, live, store).map_err(|number| format!("{call:?}\nleft with {number}"))?;
    // Objects are added behind those that were there; the bytes behind them stay.
    let used = 16 * held.stored();
    if store[used..] != before.shown()[2][used..] {
        return Err(format!("{call:?}\nours {answer:?}, and the store was written to behind its objects"));
    }
    match right {
        Right::Left { answer: right, .. } if right != answer => {
            Err(format!("{call:?}\nours {answer:?}\nright {right:?}"))
        }
        Right::Left { fuel: right, .. } if right != lent_fuel => {
            Err(format!("{call:?}\nfuel {lent_fuel:?}, right is {right:?}"))
        }
        Right::Left { snapshot, .. } if snapshot != held => {
            Err(format!("{call:?}\nours {answer:?}, and memory holds another state\n{held:?}\nright is\n{snapshot:?}"))
        }
        _ => Ok((answer, known)),
    }
}

/// Bytes around the loans and behind the last whole cell of the live stack are as before.
fn check_around(before: &Lending, now: &Lending) -> Result<(), String> {
    let live = now.shown()[1];
    let cells = (live.len() / 16).min(LIVE_CELLS) * 16;
    if !before.same_around(now) || live[cells..] != before.shown()[1][cells..] {
        return Err("bytes outside of the cells lent were written to".into());
    }
    Ok(())
}
