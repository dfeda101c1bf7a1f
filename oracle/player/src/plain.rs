//! The eight calls that run nothing, on lent bytes, by the model of memory: what the exported functions must do to every byte.

use crate::{
    call::{Answer, Call, STATE_LENGTH, STORE_CELLS},
    cell::{Cell, tag},
    driver::{message, refusal},
    form::{Form, SLICE},
    image::{Constant, Part, Program},
    memory::{read, write},
    snapshot::{Outcome, Snapshot},
};

/// Lent memory.
pub struct Memory<'a> {
    pub state: &'a mut [u8],
    pub live: &'a mut [u8],
    pub store: &'a mut [u8],
}

/// A call with an image that holds this program, or has this refusal.
pub fn call(program: Result<&Program, u32>, memory: &mut Memory, page: &[u8], call: &Call) -> Answer {
    accept(program, memory, page, call).unwrap_or_else(Answer::of)
}

fn accept(program: Result<&Program, u32>, memory: &mut Memory, page: &[u8], call: &Call) -> Result<Answer, u32> {
    if memory.state.len() != STATE_LENGTH {
        return Err(refusal::LENGTH);
    }
    let program = program?;
    if *call == Call::Load {
        return load(program, memory);
    }
    let mut snapshot = read(program, memory.state, memory.live, memory.store)?;
    let answer = carry_out(program, &mut snapshot, page, call)?;
    memory.state.copy_from_slice(&write(&snapshot).bytes()[0]);
    Ok(answer)
}

fn load(program: &Program, memory: &mut Memory) -> Result<Answer, u32> {
    let snapshot = Snapshot::just_loaded(program.codes[0].captures.len());
    if snapshot.stored() > (memory.store.len() / 16).min(STORE_CELLS) {
        return Err(refusal::STORE);
    }
    let [state, _, store] = write(&snapshot).bytes();
    memory.state.copy_from_slice(&state);
    memory.store[..store.len()].copy_from_slice(&store);
    Ok(Answer { value: Cell::new(tag::CLOSURE, 0, 0), ..Answer::default() })
}

fn carry_out(program: &Program, snapshot: &mut Snapshot, page: &[u8], call: &Call) -> Result<Answer, u32> {
    let is_value = |cell: Cell| Form::new(program, snapshot).is_value(cell);
    let given =
        |value: Option<&Cell>| value.map(|&value| Answer { value, ..Answer::default() }).ok_or(refusal::HOST_VALUE);
    match *call {
        Call::GetGlobal { number } => return given(snapshot.globals.get(number as usize)),
        Call::GetBuiltin { number } => return given(snapshot.builtins.get(number as usize)),
        Call::Text { value }
        | Call::Bytes { value }
        | Call::SetGlobal { value, .. }
        | Call::SetBuiltin { value, .. }
            if !is_value(value) =>
        {
            return Err(refusal::HOST_VALUE);
        }
        Call::Text { value } => return text(program, page, value),
        Call::Bytes { value } => return bytes(program, value),
        Call::SetGlobal { number, value } => *named(&mut snapshot.globals, number)? = value,
        Call::SetBuiltin { number, value } => *named(&mut snapshot.builtins, number)? = value,
        Call::Clear => {
            (snapshot.frames, snapshot.result) = (Vec::new(), Outcome::None);
            (snapshot.wait, snapshot.left) = (false, SLICE);
        }
        Call::Load | Call::Start { .. } | Call::Run { .. } | Call::Answer { .. } => {
            unreachable!("{call:?} is none of the calls on a state that run nothing")
        }
    }
    Ok(Answer::default())
}

fn named(values: &mut [Cell], number: u32) -> Result<&mut Cell, u32> {
    values.get_mut(number as usize).ok_or(refusal::HOST_VALUE)
}

/// The constant that a value of the image is.
fn constant(program: &Program, value: Cell) -> Option<&Constant> {
    program.codes.get(value.number as usize)?.constants.get(value.payload as usize)
}

fn text(program: &Program, page: &[u8], value: Cell) -> Result<Answer, u32> {
    match (value.tag, constant(program, value)) {
        (tag::MESSAGE, _) => Ok(message(page, value.number)),
        (tag::STR, Some(Constant::Str(part))) => Ok(part_of_image(*part)),
        _ => Err(refusal::HOST_VALUE),
    }
}

fn bytes(program: &Program, value: Cell) -> Result<Answer, u32> {
    match (value.tag, constant(program, value)) {
        (tag::BYTES, Some(Constant::Bytes(part))) => Ok(part_of_image(*part)),
        _ => Err(refusal::HOST_VALUE),
    }
}

fn part_of_image(part: Part) -> Answer {
    Answer { from: 0, start: part.start as u64, len: part.len as u64, ..Answer::default() }
}

#[cfg(test)]
mod tests {
    use super::*;
    use crate::{
        call::{Lent, Machine, code},
        driver::Driver,
        generate, image,
    };

    /// The driver, with the model beside it.
    struct Both {
        driver: Driver,
        compared: usize,
    }

    impl Machine for Both {
        fn call(&mut self, lent: Lent<'_>, call: &Call) -> Answer {
            let Lent { image, loans, page, .. } = lent;
            let [mut state, mut live, mut store] = write(&self.driver.snapshot()).bytes();
            state.resize(loans.state, 0);
            live.resize(loans.live, 0);
            store.resize(loans.store, 0);
            let answer = self.driver.call(lent, call);
            if matches!(call, Call::Start { .. } | Call::Run { .. } | Call::Answer { .. }) {
                return answer;
            }
            let program = image::parse(image);
            let program = program.as_ref().map_err(|&number| number);
            let mut memory = Memory { state: &mut state, live: &mut live, store: &mut store };
            assert_eq!(super::call(program, &mut memory, page, call), answer, "{call:?}");
            if answer.code == code::ACCEPTED {
                assert_eq!(program.and_then(|program| read(program, &state, &live, &store)), Ok(self.snapshot()));
            }
            self.compared += 1;
            answer
        }

        fn snapshot(&self) -> Snapshot {
            self.driver.snapshot()
        }
    }

    #[test]
    fn the_model_and_the_driver_agree_on_the_calls_that_run_nothing() {
        let mut compared = 0;
        for seed in 0..400 {
            let mut both = Both { driver: Driver::new(), compared: 0 };
            generate::list(seed, &mut both, &mut |_, _| ());
            compared += both.compared;
        }
        assert!(compared > 3_000, "{compared} calls");
    }
}
