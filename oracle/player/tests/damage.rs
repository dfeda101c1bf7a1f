//! Damaged images hit every answer often.

mod programs;

use player::{
    damage::damage,
    image::{MAX_BYTES, MAX_CODES, parse, refusal},
    random::Random,
    tree::encode,
};
use programs::{answer, random_program};

#[test]
fn every_answer_occurs_often() {
    let mut counts = [0; 5];
    for seed in 0..20_000 {
        let mut random = Random::new(seed);
        let image = encode(&random_program(&mut random));
        counts[answer(&damage(&image, &mut random)) as usize] += 1;
    }
    println!("accepted and refused 1 to 4: {counts:?}");
    assert!(counts.iter().all(|&count| count > 600), "{counts:?}");
}

#[test]
fn limits_are_met_exactly() {
    let (mut codes, mut bytes) = ([0; 2], [0; 2]);
    for seed in 0..20_000 {
        let mut random = Random::new(seed);
        let image = damage(&encode(&random_program(&mut random)), &mut random);
        let program = parse(&image);
        codes[0] += u32::from(program.as_ref().is_ok_and(|program| program.codes.len() == MAX_CODES));
        codes[1] += u32::from(program == Err(refusal::NESTING));
        bytes[0] += u32::from(program.is_ok() && image.len() == MAX_BYTES);
        bytes[1] += u32::from(image.len() == MAX_BYTES + 1);
    }
    println!("256 codes and nesting refused: {codes:?}; 65,536 and 65,537 bytes: {bytes:?}");
    assert!(codes.iter().chain(&bytes).all(|&count| count > 50), "{codes:?} {bytes:?}");
}

#[test]
fn damage_of_any_bytes() {
    for seed in 0..5_000 {
        let mut random = Random::new(seed);
        let mut image: Vec<u8> = (0..random.below(60)).map(|_| random.next_u64() as u8).collect();
        for _ in 0..4 {
            image = damage(&image, &mut random);
            answer(&image);
        }
    }
}

#[test]
fn the_same_seed_gives_the_same_image() {
    let image = encode(&random_program(&mut Random::new(1)));
    for seed in 0..100 {
        let [first, second] = [0, 1].map(|_| damage(&image, &mut Random::new(seed)));
        assert_eq!(first, second);
    }
}
