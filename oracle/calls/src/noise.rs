//! Noise: random bytes as image, memory, fuel, answer and values, and good ones with flipped bits. Every call must end, answer as the model or the Rust does
//! on what the bytes hold, and leave every byte if it refuses.

use std::{
    collections::BTreeMap,
    time::{Duration, Instant},
};

use player::{
    call::{Call, Loans, STATE_LENGTH},
    cell::Cell,
    generate::{self, State},
    image,
    memory::write,
    random::Random,
    snapshot::Snapshot,
};

use crate::{
    held::{self, Parsed},
    near::{Names, number, page},
    running::{fuel, running_call},
    trial::{Lending, Trial},
    values::{Counts, name},
};

/// Calls on each state.
const CALLS: usize = 400;

/// How the bytes of a call are made.
#[derive(Clone, Copy, PartialEq, Eq, PartialOrd, Ord, Debug)]
enum Made {
    /// All of them random.
    Random,
    /// Random memory, a good image.
    RandomMemory,
    /// A good state with some bits flipped, in the image too.
    Flipped,
    /// Loans cut off or longer, the content good.
    Cut,
}

#[derive(Default)]
pub struct Noise {
    pub counts: Counts,
    made: BTreeMap<Made, u64>,
    states: u64,
}

impl Noise {
    /// Plays noise on states of random lists up to the last second.
    pub fn play(&mut self, from: u64, seconds: u64) -> Result<(), String> {
        let begin = Instant::now();
        (from..).take_while(|_| begin.elapsed() < Duration::from_secs(seconds)).try_for_each(|seed| {
            let mut random = Random::new(seed ^ 0x6e6f_6973_65);
            let states = generate::states(seed);
            let Some(state) = (!states.is_empty()).then(|| random.pick(&states)) else { return Ok(()) };
            if state.snapshot.live() + state.snapshot.stored() > 2_000 {
                return Ok(());
            }
            self.states += 1;
            (0..CALLS).try_for_each(|_| self.call(&mut random, state)).map_err(|what| format!("seed {seed}: {what}"))
        })
    }

    fn call(&mut self, random: &mut Random, state: &State) -> Result<(), String> {
        let made = *random.pick(&[Made::Random, Made::RandomMemory, Made::Flipped, Made::Flipped, Made::Cut]);
        let (bytes, memory, loans) = bytes(random, made, state);
        let parsed = Parsed::new(bytes);
        let image = parsed.image();
        let good = image::parse(&state.image).map_err(|number| format!("a loaded image is refused with {number}"))?;
        let call = any_call(random, &Names::of(&good, &state.snapshot), &state.snapshot);
        let mut lending = Lending::new(random, &memory, loans);
        let page = page(random);
        let program = image.program.map(|(program, _)| program);
        let trial = Trial { image: image.bytes, program, page: &page, call: &call };
        let code = match call {
            Call::Start { .. } | Call::Run { .. } | Call::Answer { .. } => {
                let before = lending.clone();
                let compared = held::compare(&image, &mut lending, &fuel(random), &page, &call);
                compared.map_err(|what| trial.keep(&before, &what))?.0.code
            }
            _ => trial.run(&mut lending)?.code,
        };
        *self.counts.entry((name(&call), code)).or_default() += 1;
        *self.made.entry(made).or_default() += 1;
        Ok(())
    }

    pub fn tally(&self) -> String {
        let made = self.made.iter().map(|(made, count)| format!("\n{count:>9} {made:?}"));
        format!("{} states{}", self.states, made.collect::<String>())
    }
}

/// Image, contents of state block, live stack and store, and the lengths of their loans.
fn bytes(random: &mut Random, made: Made, state: &State) -> (Vec<u8>, [Vec<u8>; 3], Loans) {
    let good = write(&state.snapshot).bytes();
    let longer = |random: &mut Random, len: usize| len + random.below(200);
    match made {
        Made::Random => {
            let (live, store, length) = (random.below(2_000), random.below(2_000), random.below(400));
            let block = if random.chance(7, 8) { STATE_LENGTH } else { random.below(2 * STATE_LENGTH) };
            let image = noise(random, length);
            (image, [block, live, store].map(|len| noise(random, len)), Loans { state: block, live, store })
        }
        Made::RandomMemory => {
            let (live, store) = (random.below(2_000), random.below(2_000));
            let mut memory = [STATE_LENGTH, live, store].map(|len| noise(random, len));
            if random.chance(1, 2) {
                memory[0][..16].copy_from_slice(&good[0][..16]);
            }
            (state.image.to_vec(), memory, Loans { state: STATE_LENGTH, live, store })
        }
        Made::Flipped => {
            let mut memory = good;
            let mut image = state.image.to_vec();
            for _ in 0..1 + random.below(4) {
                match random.below(8) {
                    0 => flip(random, &mut image),
                    1 => flip(random, &mut memory[0]),
                    2 => flip(random, &mut memory[0][..64]),
                    3..=5 => flip(random, &mut memory[1]),
                    _ => flip(random, &mut memory[2]),
                }
            }
            let [live, store] = [1, 2].map(|loan: usize| longer(random, memory[loan].len()));
            (image, memory, Loans { state: STATE_LENGTH, live, store })
        }
        Made::Cut => {
            let cut = |random: &mut Random, len: usize| match random.below(4) {
                0 => random.below(len + 1),
                1 => len.saturating_sub(random.below(20)),
                _ => longer(random, len),
            };
            let [live, store] = [1, 2].map(|loan: usize| cut(random, good[loan].len()));
            let block = if random.chance(7, 8) { STATE_LENGTH } else { cut(random, STATE_LENGTH) };
            (state.image.to_vec(), good, Loans { state: block, live, store })
        }
    }
}

fn noise(random: &mut Random, len: usize) -> Vec<u8> {
    // Small numbers too, which pass more tests.
    let small = random.chance(1, 2);
    (0..len).map(|_| if small && random.chance(3, 4) { 0 } else { random.next_u64() as u8 }).collect()
}

fn flip(random: &mut Random, bytes: &mut [u8]) {
    if !bytes.is_empty() {
        let at = random.below(bytes.len());
        bytes[at] ^= 1 << random.below(8);
    }
}

fn any_call(random: &mut Random, names: &Names, held: &Snapshot) -> Call {
    let (number, value) = (number(random), any_cell(random, names));
    match random.below(16) {
        0 => Call::Load,
        1 => Call::Clear,
        2 => Call::Text { value },
        3 => Call::Bytes { value },
        4 => Call::SetGlobal { number, value },
        5 => Call::GetGlobal { number },
        6 => Call::SetBuiltin { number, value },
        7 => Call::GetBuiltin { number },
        8 => {
            let [args, handlers] = [0, 0].map(|_| noise_list(random));
            let kind = random.below(9) as u32;
            Call::Answer { kind, word: random.next_u64(), subject: value, args, handlers }
        }
        9 => Call::Start { function: value, args: noise_list(random) },
        _ => running_call(random, names, held),
    }
}

fn noise_list(random: &mut Random) -> Vec<u8> {
    let len = if random.chance(1, 2) { 16 * random.below(5) } else { random.below(90) };
    noise(random, len)
}

fn any_cell(random: &mut Random, names: &Names) -> Cell {
    if random.chance(1, 2) { Cell::from_bytes(&noise(random, 16)) } else { names.value(random) }
}
