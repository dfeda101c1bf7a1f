//! Random lists of calls by seed: each call is chosen by what the calls before it left.

mod coder;
mod expressions;
mod handlers;
mod lend;
mod program;
mod statements;
mod tight;
mod values;

use std::rc::Rc;

use crate::{
    call::{Call, Loans, Machine, code, kind},
    cell::{Cell, bytes_of, tag},
    driver::Driver,
    image::{self, Program},
    random::Random,
    snapshot::{Outcome, Snapshot},
    step::{After, Step, fuel_bytes},
    tree::encode,
};
use lend::Lender;
use program::HOST;

/// Plays the list of this seed on a new machine and shows each step with what it left.
pub fn list(seed: u64, machine: &mut dyn Machine, each: &mut dyn FnMut(&Step, &After)) {
    let mut random = Random::new(seed);
    let calls = 8 + random.below(32);
    let (image, program) = image(&mut random);
    List::new(random, image, program, machine.snapshot()).play(calls, machine, each);
}

/// The same for a list near the limits: of frames, handlers, live stack and store, mostly while the host is asked (`tight.rs`).
pub fn tight_list(seed: u64, machine: &mut dyn Machine, each: &mut dyn FnMut(&Step, &After)) {
    let mut random = Random::new(!seed);
    let calls = 12 + random.below(28);
    let bytes = encode(&tight::program(&mut random));
    let program = image::parse(&bytes).expect("a program of the template is accepted");
    let mut list = List::new(random, bytes.into(), program, machine.snapshot());
    (list.is_tight, list.is_fast) = (true, true);
    list.play(calls, machine, each);
}

impl List {
    fn play(mut self, calls: usize, machine: &mut dyn Machine, each: &mut dyn FnMut(&Step, &After)) {
        for number in 0..calls {
            let call = match number {
                0 if self.random.chance(19, 20) => Call::Load,
                1..=3 if self.snapshot.loaded && self.random.chance(14, 15) => self.set_host(number),
                _ => self.call(),
            };
            let step = self.step(call);
            let after = step.play(machine);
            each(&step, &after);
            self.learn(&step, after);
        }
    }
}

/// A loaded image, and what memory holds then.
#[derive(Clone, Debug)]
pub struct State {
    pub image: Rc<[u8]>,
    pub snapshot: Snapshot,
}

/// What the calls of this seed's list leave on the Rust from its first accepted load on.
pub fn states(seed: u64) -> Vec<State> {
    let mut loaded: Option<Rc<[u8]>> = None;
    let mut states = Vec::new();
    list(seed, &mut Driver::new(), &mut |step, after| {
        if step.call == Call::Load && after.answer.code == code::ACCEPTED {
            loaded = Some(Rc::clone(&step.image));
        }
        states.extend(loaded.as_ref().map(|image| State { image: Rc::clone(image), snapshot: after.snapshot.clone() }));
    });
    states
}

/// A random program whose image is accepted.
pub fn image(random: &mut Random) -> (Rc<[u8]>, Program) {
    loop {
        let bytes = encode(&program::program(random));
        if let Ok(program) = image::parse(&bytes) {
            return (bytes.into(), program);
        }
    }
}

/// What is known while a list is made.
struct List {
    random: Random,
    lender: Lender,
    /// The loaded image, or the one to load.
    image: Rc<[u8]>,
    program: Program,
    snapshot: Snapshot,
    fuel: Vec<u8>,
    /// Runs get many ticks.
    is_fast: bool,
    /// The last call was a run that was refused at an opcode or callback.
    is_stuck: bool,
    /// Loans and answers are near the limits.
    is_tight: bool,
}

impl List {
    fn new(mut random: Random, image: Rc<[u8]>, program: Program, snapshot: Snapshot) -> List {
        let lender = Lender::new(&mut random);
        let is_fast = random.chance(1, 3);
        let fuel = fuel_bytes(100_000, 0);
        List { random, lender, image, program, snapshot, fuel, is_fast, is_stuck: false, is_tight: false }
    }

    /// The call with what it is lent.
    fn step(&mut self, call: Call) -> Step {
        let charges = matches!(call, Call::Run { .. } | Call::Answer { .. });
        let fuel = self.lender.fuel(&mut self.random, &self.fuel, charges);
        let image = self.lender.image(&mut self.random, &self.image, &call);
        let loans = match call {
            Call::Start { .. } | Call::Run { .. } | Call::Answer { .. } if self.is_tight => self.tight_loans(&call),
            _ if self.is_tight => Loans::default(),
            _ => self.lender.loans(&mut self.random, &self.snapshot),
        };
        Step { image, loans, page: self.lender.page(&mut self.random), fuel, call }
    }

    fn learn(&mut self, step: &Step, after: After) {
        if step.call == Call::Load && after.answer.code == code::ACCEPTED {
            self.image = Rc::clone(&step.image);
            self.program = image::parse(&step.image).expect("a loaded image is accepted");
        }
        self.is_stuck = matches!(step.call, Call::Run { .. }) && (12..=16).contains(&after.answer.code);
        self.fuel = after.fuel;
        self.snapshot = after.snapshot;
    }

    /// The next call: mostly one whose turn it is.
    fn call(&mut self) -> Call {
        let has_result = self.snapshot.result != Outcome::None;
        if !self.snapshot.loaded && self.random.chance(5, 6) {
            Call::Load
        } else if self.random.chance(1, 6) {
            self.other()
        } else if self.is_host_unset() && self.random.chance(2, 3) {
            let index = 1 + self.random.below(HOST.len());
            self.set_host(index)
        } else if self.snapshot.wait && self.is_tight && self.random.chance(3, 4) {
            self.tight_answer()
        } else if self.snapshot.wait {
            self.answer()
        } else if has_result && self.random.chance(5, 6) || self.is_stuck && self.random.chance(1, 2) {
            Call::Clear
        } else if has_result || !self.snapshot.frames.is_empty() {
            self.run()
        } else {
            self.start()
        }
    }

    /// No frames yet, and nothing where programs look for what the host gives.
    fn is_host_unset(&self) -> bool {
        let Snapshot { loaded, frames, globals, builtins, .. } = &self.snapshot;
        *loaded
            && frames.is_empty()
            && HOST.iter().all(|&name| [globals, builtins].iter().all(|of| of[usize::from(name)] == Cell::NULL))
    }

    /// Sets one of the globals or builtins from which programs take what they call.
    fn set_host(&mut self, number: usize) -> Call {
        let value = if self.random.chance(3, 4) { self.callback() } else { self.set_value() };
        let number = HOST[number - 1].into();
        if self.random.chance(1, 2) { Call::SetGlobal { number, value } } else { Call::SetBuiltin { number, value } }
    }

    /// Any call, whether it is its turn or not.
    fn other(&mut self) -> Call {
        match self.random.below(24) {
            0..=5 => Call::SetGlobal { number: self.number(), value: self.set_value() },
            6..=8 => Call::SetBuiltin { number: self.number(), value: self.set_value() },
            9..=10 => Call::GetGlobal { number: self.number() },
            11 => Call::GetBuiltin { number: self.number() },
            12..=13 => Call::Text { value: self.text_value() },
            14 => Call::Bytes { value: self.bytes_value() },
            15..=17 => self.run(),
            18..=19 => self.start(),
            20..=21 => self.answer(),
            22 => Call::Clear,
            _ => Call::Load,
        }
    }

    fn run(&mut self) -> Call {
        let ticks = match self.random.below(12) {
            _ if self.is_fast => 2_000 + self.random.below(4_000),
            0 => 0,
            1..=2 => 1,
            3..=5 => 2 + self.random.below(12),
            6..=7 => 60 + self.random.below(12),
            8..=9 => 1_000 + self.random.below(3_000),
            _ => 100 + self.random.below(400),
        };
        Call::Run { ticks: ticks as u32 }
    }

    fn start(&mut self) -> Call {
        let function = match self.random.below(3) {
            0..=1 => Cell::new(tag::CLOSURE, 0, 0),
            _ if self.random.chance(1, 4) => self.callback(),
            _ => self.function(),
        };
        Call::Start { function, args: self.args(function) }
    }

    /// An answer of any kind that mostly fits.
    fn answer(&mut self) -> Call {
        let kind = match self.random.below(40) {
            0..=13 => kind::CALL,
            14..=21 => kind::PERFORM,
            22..=26 => kind::TAIL_CALL,
            27..=30 => kind::TAIL_PERFORM,
            31..=36 => kind::RETURN_VALUE,
            37 => kind::ERROR,
            38 => kind::PANIC,
            _ => *self.random.pick(&[kind::ERROR, kind::PANIC, 7, u32::MAX]),
        };
        let subject = match kind {
            kind::CALL | kind::TAIL_CALL => self.function(),
            kind::PERFORM | kind::TAIL_PERFORM => self.effect(),
            _ => self.value(),
        };
        let args = match kind {
            kind::CALL..=kind::TAIL_PERFORM => self.args(subject),
            _ if self.random.chance(1, 40) => bytes_of(&[Cell::NULL]),
            _ => Vec::new(),
        };
        let handlers = match kind {
            kind::CALL => self.handlers(),
            _ if self.random.chance(1, 40) => bytes_of(&[self.effect()]),
            _ => Vec::new(),
        };
        Call::Answer { kind, word: self.word(), subject, args, handlers }
    }

    /// A global's or builtin's number: mostly one that programs use.
    fn number(&mut self) -> u32 {
        match self.random.below(20) {
            0..=11 => (*self.random.pick(&HOST)).into(),
            12..=18 => self.random.below(10) as u32,
            _ => *self.random.pick(&[255, 256, 77, u32::MAX]),
        }
    }

    fn word(&mut self) -> u64 {
        match self.random.below(8) {
            0 => u64::MAX,
            _ => 100 + self.random.below(900) as u64,
        }
    }
}
