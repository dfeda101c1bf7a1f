//! Loads of random and damaged images into loans of every size around the limits.

use std::collections::BTreeMap;

use player::{
    call::{Call, LIVE_CELLS, Lent, Loans, Machine, STATE_LENGTH, STORE_CELLS},
    driver::Driver,
    generate,
    image::{self, Program},
    image_rows::damaged_image,
    random::Random,
};

use crate::trial::{Lending, Trial};

/// Loads of each image.
const LOADS: usize = 4;

/// Loads the image of a seed and counts the answers.
pub fn image(seed: u64, counts: &mut BTreeMap<u32, u64>) -> Result<(), String> {
    let mut random = Random::new(!seed);
    let image = if seed.is_multiple_of(2) { damaged_image(seed) } else { generate::image(&mut random).0.to_vec() };
    let program = image::parse(&image);
    let program = program.as_ref().map_err(|&number| number);
    (0..LOADS).try_for_each(|_| {
        let loans = loans(&mut random, program.ok());
        let code = load(&mut random, &image, program, loans).map_err(|what| format!("seed {seed}: {what}"))?;
        *counts.entry(code).or_default() += 1;
        Ok(())
    })
}

/// One load, by ours into memory of any content, by the model and by the oracle.
fn load(random: &mut Random, image: &[u8], program: Result<&Program, u32>, loans: Loans) -> Result<u32, String> {
    let mut lending = Lending::new(random, &Default::default(), loans);
    let before = lending.clone();
    let trial = Trial { image, program, page: &[], call: &Call::Load };
    let ours = trial.run(&mut lending)?;
    let oracle = Driver::new().call(Lent { image, loans, fuel: &mut [], page: &[] }, &Call::Load);
    if ours == oracle {
        return Ok(ours.code);
    }
    Err(trial.keep(&before, &format!("{loans:?}\nours {ours:?}\noracle {oracle:?}")))
}

/// Lengths around those that count: the state block's own, what the load needs, the most that is used.
fn loans(random: &mut Random, program: Option<&Program>) -> Loans {
    let needed = 1 + program.map_or(0, |program| program.codes[0].captures.len());
    let store = match random.below(24) {
        0..=1 => 0,
        2..=9 => (16 * needed + random.below(48)).saturating_sub(32),
        10..=21 => 16 * (needed + random.below(40)) + random.below(16),
        22 => 16 * STORE_CELLS + random.below(33) - 16,
        _ => 16 * (STORE_CELLS + random.below(200)) + random.below(16),
    };
    let live = match random.below(12) {
        0 => 0,
        1 => 16 * LIVE_CELLS + random.below(33) - 16,
        2 => 16 * (LIVE_CELLS + random.below(200)) + random.below(16),
        _ => random.below(400),
    };
    let state = match random.below(16) {
        0 => *random.pick(&[0, 1, 16, STATE_LENGTH - 16, STATE_LENGTH + 16, 2 * STATE_LENGTH]),
        1 => STATE_LENGTH - 1,
        2 => STATE_LENGTH + 1,
        _ => STATE_LENGTH,
    };
    Loans { state, live, store }
}
