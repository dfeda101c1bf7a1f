//! The exported calls beside the oracle and beside the model of memory, from outside.

mod bench;
mod cases;
mod coverage;
mod damage;
mod fence;
mod held;
mod kept;
mod limits;
mod lists;
mod loads;
mod near;
mod noise;
mod odd;
mod ours;
mod running;
mod runs;
mod trial;
mod values;

use std::{collections::BTreeMap, fs, process::ExitCode, time::Instant};

use player::case;

use coverage::Coverage;
use damage::Damage;
use lists::Lists;
use noise::Noise;
use values::Counts;

const USAGE: &str = "usage: calls lists FROM LISTS [--seconds N]
       calls coverage FROM LISTS
       calls cases FILES..
       calls loads FROM IMAGES
       calls values FROM LISTS
       calls runs FROM LISTS
       calls damage FROM CALLS
       calls noise FROM --seconds N
       calls limits
       calls bench";

fn main() -> ExitCode {
    let args: Vec<String> = std::env::args().skip(1).collect();
    let args: Vec<&str> = args.iter().map(String::as_str).collect();
    let begin = Instant::now();
    let outcome = match args.as_slice() {
        ["lists", from, count] => numbers(from, count).and_then(|(from, count)| lists(from, count, None)),
        ["lists", from, count, "--seconds", seconds] => {
            numbers(from, count).and_then(|(from, count)| lists(from, count, Some(number(seconds)?)))
        }
        ["cases", files @ ..] if !files.is_empty() => cases(files),
        ["coverage", from, count] => numbers(from, count).and_then(|(from, count)| coverage(from, count)),
        ["loads", from, count] => numbers(from, count).and_then(|(from, count)| loads(from, count)),
        ["values", from, count] => numbers(from, count).and_then(|(from, count)| values(from, count)),
        ["runs", from, count] => numbers(from, count).and_then(|(from, count)| runs(from, count)),
        ["damage", from, count] => numbers(from, count).and_then(|(from, count)| damage(from, count)),
        ["noise", from, "--seconds", seconds] => numbers(from, seconds).and_then(|(from, count)| noise(from, count)),
        ["limits"] => limits(),
        ["bench"] => bench::run(),
        _ => Err(USAGE.into()),
    };
    match outcome {
        Ok(()) => {
            println!("{:.1} seconds", begin.elapsed().as_secs_f64());
            ExitCode::SUCCESS
        }
        Err(reason) => {
            eprintln!("{reason}");
            ExitCode::FAILURE
        }
    }
}

/// The first seed, and how many.
fn numbers(from: &str, count: &str) -> Result<(u64, u64), String> {
    Ok((number(from)?, number(count)?))
}

fn number(text: &str) -> Result<u64, String> {
    text.parse().map_err(|_| format!("`{text}` is no number\n{USAGE}"))
}

fn lists(from: u64, count: u64, seconds: Option<u64>) -> Result<(), String> {
    let mut lists = Lists::default();
    lists.play(from, count, seconds)?;
    println!("{}", lists.tally());
    print_counts(&lists.counts);
    Ok(())
}

/// Plays all cases of the files by ours, beside the Rust, with a line for each file.
fn cases(files: &[&str]) -> Result<(), String> {
    let mut failed = 0;
    for file in files {
        let text = fs::read_to_string(file).map_err(|error| format!("{file}: {error}"))?;
        let cases = case::parse(file, &text).map_err(|malformed| malformed.to_string())?;
        let failures: Vec<String> = cases.iter().filter_map(|case| cases::play(case).err()).collect();
        failures.iter().for_each(|failure| println!("{failure}"));
        println!("{file}: {} passed, {} failed", cases.len() - failures.len(), failures.len());
        failed += failures.len();
    }
    if failed == 0 { Ok(()) } else { Err("some cases failed".into()) }
}

/// How often random lists reach what is easily missed.
fn coverage(from: u64, count: u64) -> Result<(), String> {
    let mut lists = Lists::default();
    lists.coverage = Some(Coverage::default());
    lists.play(from, count, None)?;
    println!("{}", lists.tally());
    Ok(())
}

fn loads(from: u64, images: u64) -> Result<(), String> {
    let mut counts = BTreeMap::new();
    (from..from + images).try_for_each(|seed| loads::image(seed, &mut counts))?;
    println!("{} loads of {images} images, no difference", counts.values().sum::<u64>());
    counts.iter().for_each(|(code, count)| println!("{count:>9} answered {code}"));
    Ok(())
}

fn values(from: u64, lists: u64) -> Result<(), String> {
    let mut counts = Counts::new();
    (from..from + lists).try_for_each(|seed| values::list(seed, &mut counts))?;
    println!("{lists} lists");
    print_counts(&counts);
    Ok(())
}

fn runs(from: u64, lists: u64) -> Result<(), String> {
    let (mut counts, mut ticks) = (Counts::new(), 0);
    (from..from + lists).try_for_each(|seed| runs::list(seed, &mut counts, &mut ticks))?;
    println!("{lists} lists, {ticks} ticks");
    print_counts(&counts);
    Ok(())
}

fn noise(from: u64, seconds: u64) -> Result<(), String> {
    let mut noise = Noise::default();
    noise.play(from, seconds)?;
    println!("{}", noise.tally());
    print_counts(&noise.counts);
    Ok(())
}

fn limits() -> Result<(), String> {
    let mut counts = Counts::new();
    limits::run(&mut counts)?;
    print_counts(&counts);
    Ok(())
}

fn print_counts(counts: &Counts) {
    println!("{} calls, no difference", counts.values().sum::<u64>());
    counts.iter().for_each(|((call, code), count)| println!("{count:>9} {call:<11} answered {code}"));
}

fn damage(from: u64, calls: u64) -> Result<(), String> {
    let mut damage = Damage::default();
    let mut seed = from;
    while damage.calls() < calls {
        damage.seed(seed)?;
        seed += 1;
    }
    println!("{}\nno difference", damage.tally());
    Ok(())
}
