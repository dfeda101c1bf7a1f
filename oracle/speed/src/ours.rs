//! The exported functions of include/lucia.h, on memory lent.

use std::time::Duration;

use player::{
    call::{LIVE_CELLS, STATE_LENGTH, STORE_CELLS, code},
    cell::{Cell, tag},
    image::Program,
    memory::{read, write},
    snapshot::{Frame, FrameKind, Object, Outcome, Snapshot},
};

use crate::{
    clock::timed,
    scripts::{Host, Script},
    shared::{FUEL, HOST_NUMBER, Left},
};

type Bytes = *const u8;
type Lent = *mut u8;

#[repr(C)]
struct Ran {
    code: u32,
    ticks: u32,
}

// Image, state block, live stack, store and fuel come first, each with its length.
#[rustfmt::skip]
unsafe extern "C" {
    fn lucia_run(
        i: Bytes, il: usize, s: Lent, sl: usize, l: Lent, ll: usize, t: Lent, tl: usize, f: Lent, fl: usize, ticks: u32,
    ) -> Ran;
    #[cfg(feature = "host")]
    fn lucia_answer(
        i: Bytes, il: usize, s: Lent, sl: usize, l: Lent, ll: usize, t: Lent, tl: usize, f: Lent, fl: usize, kind: u32,
        word: u64, low: u64, high: u64, args: Bytes, al: usize, handlers: Bytes, hl: usize,
    ) -> u32;
}

/// What a run took.
#[derive(Clone, Copy, Default)]
pub struct Took {
    pub calls: u64,
    pub ticks: u64,
}

pub struct Ours {
    image: Vec<u8>,
    program: Program,
    /// State block, live stack and store as the timed run finds them, up to the last cell used.
    begin: [Vec<u8>; 3],
    memory: [Vec<u8>; 3],
    fuel: [u8; 5],
}

impl Ours {
    /// Memory is written by the model, with the outermost closure's frame; `spent` is the fuel until the timed run begins.
    pub fn new(script: &Script, image: &[u8], program: Program, spent: i32) -> Result<Ours, String> {
        let begin = write(&started(&program, script.host)).bytes();
        let memory = [STATE_LENGTH, LIVE_CELLS * 16, STORE_CELLS * 16].map(|len| vec![0; len]);
        let mut ours = Ours { image: image.to_vec(), program, begin, memory, fuel: [0; 5] };
        if spent > 0 {
            ours.restore(spent);
            match ours.run(u32::MAX).code {
                code::OUT_OF_FUEL => ours.begin = ours.used()?,
                other => return Err(format!("ours answered {other} before the timed run")),
            }
        }
        Ok(ours)
    }

    /// One run; memory is put back before it, which is not timed.
    pub fn round(&mut self) -> Result<(Duration, Took), String> {
        self.restore(FUEL);
        let (time, took) = timed(|| self.run_to_end());
        Ok((time, took.map_err(|code| format!("ours answered {code}"))?))
    }

    /// A run of no ticks: the image is read, memory is tested for its form, and nothing is done.
    pub fn entry(&mut self) -> Duration {
        self.restore(FUEL);
        timed(|| self.run(0)).0
    }

    fn restore(&mut self, fuel: i32) {
        for (begin, memory) in self.begin.iter().zip(&mut self.memory) {
            memory[..begin.len()].copy_from_slice(begin);
        }
        self.fuel[..4].copy_from_slice(&fuel.to_le_bytes());
    }

    fn run(&mut self, ticks: u32) -> Ran {
        let [state, live, store] = &mut self.memory;
        let (i, il) = (self.image.as_ptr(), self.image.len());
        let (s, sl) = (state.as_mut_ptr(), state.len());
        let (l, ll) = (live.as_mut_ptr(), live.len());
        let (t, tl) = (store.as_mut_ptr(), store.len());
        let (f, fl) = (self.fuel.as_mut_ptr(), self.fuel.len());
        // SAFETY: pointers and lengths are those of vectors that live through the call and do not overlap.
        unsafe { lucia_run(i, il, s, sl, l, ll, t, tl, f, fl, ticks) }
    }

    fn run_to_end(&mut self) -> Result<Took, u32> {
        let mut took = Took::default();
        loop {
            let Ran { code, ticks } = self.run(u32::MAX);
            took = Took { calls: took.calls + 1, ticks: took.ticks + u64::from(ticks) };
            match code {
                code::DONE => return Ok(took),
                code::HOST => self.answer()?,
                other => return Err(other),
            }
            took.calls += 1;
        }
    }

    #[cfg(not(feature = "host"))]
    fn answer(&mut self) -> Result<(), u32> {
        Err(code::HOST)
    }

    /// The host's callback returns.
    #[cfg(feature = "host")]
    fn answer(&mut self) -> Result<(), u32> {
        use crate::shared::ANSWER;
        use player::call::kind;

        let value = Cell::int(ANSWER);
        let [state, live, store] = &mut self.memory;
        let (i, il) = (self.image.as_ptr(), self.image.len());
        let (s, sl) = (state.as_mut_ptr(), state.len());
        let (l, ll) = (live.as_mut_ptr(), live.len());
        let (t, tl) = (store.as_mut_ptr(), store.len());
        let (f, fl) = (self.fuel.as_mut_ptr(), self.fuel.len());
        let none = [].as_ptr();
        let (kind, low, high) = (kind::RETURN_VALUE, value.low(), value.high());
        // SAFETY: as in a run; the two lists are empty.
        let code = unsafe { lucia_answer(i, il, s, sl, l, ll, t, tl, f, fl, kind, 0, low, high, none, 0, none, 0) };
        if code == code::GO_ON { Ok(()) } else { Err(code) }
    }

    fn snapshot(&self) -> Result<Snapshot, String> {
        let [state, live, store] = &self.memory;
        read(&self.program, state, live, store).map_err(|number| format!("memory is out of form: {number}"))
    }

    /// What is held now, up to the last cell used.
    fn used(&self) -> Result<[Vec<u8>; 3], String> {
        Ok(write(&self.snapshot()?).bytes())
    }

    /// What the last run left.
    pub fn left(&self) -> Result<Left, String> {
        let value = match self.snapshot()?.result {
            Outcome::Value(Cell { tag: tag::INT, payload, .. }) => Some(payload as i64),
            _ => None,
        };
        let [fuel @ .., _] = self.fuel;
        Ok(Left { value, fuel: i32::from_le_bytes(fuel) })
    }
}

/// A memory just loaded, with the frame of a start of the outermost closure, and the host's callback as global 0.
fn started(program: &Program, host: Option<Host>) -> Snapshot {
    let locals = vec![Cell::NULL; program.codes[0].locals.into()];
    let kind = FrameKind::Lucia { closure: 0, place: 0 };
    let frames = vec![Frame { kind, locals, handlers: Vec::new(), stack: Vec::new() }];
    let mut snapshot = Snapshot { frames, ..Snapshot::just_loaded(0) };
    snapshot.globals[0] = Cell::new(tag::CALLBACK, HOST_NUMBER, 0);
    if let Some(Host::FullStore) = host {
        fill(&mut snapshot);
    }
    snapshot
}

/// Lists of Ints, until no cell of the store is free.
fn fill(snapshot: &mut Snapshot) {
    let mut used = snapshot.stored();
    while used < STORE_CELLS {
        let list = Object::List(vec![Cell::int(7); (STORE_CELLS - used).min(64) - 1]);
        used += list.cost();
        snapshot.store.push(list);
    }
}
