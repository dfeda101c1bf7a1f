//! Runs an image to its end and says what came of it.

mod options;
mod report;

use std::{
    io::{self, Read, Write},
    process::ExitCode,
};

use lucia::{Answer, Fuel, Image, Machine, Memory, Refusal, Value};
use options::{Asked, Options, USAGE};

/// No image is longer; one byte more is enough to be refused for it.
const IMAGE_MOST: u64 = 65_536;

fn main() -> ExitCode {
    let asked = Options::parse(std::env::args().skip(1));
    let ran = match asked {
        Ok(Asked::Help) => {
            say(USAGE);
            return ExitCode::SUCCESS;
        }
        Ok(Asked::Run(options)) => image().map(|image| run(&image, &options)),
        Err(reason) => Err(reason),
    };
    ran.unwrap_or_else(|reason| {
        eprintln!("lucia: {reason}\n`lucia --help` says how it is used");
        ExitCode::from(2)
    })
}

/// Prints; a reader that has gone is no fault of the run's, whose status still says how it ended.
fn say(text: &str) {
    let _ = io::stdout().write_all(text.as_bytes());
}

fn image() -> Result<Vec<u8>, String> {
    let mut bytes = Vec::new();
    let read = io::stdin().take(IMAGE_MOST + 1).read_to_end(&mut bytes);
    read.map(|_| bytes).map_err(|error| format!("standard input: {error}"))
}

fn run(image: &[u8], options: &Options) -> ExitCode {
    let memory = Memory::new(options.live, options.store);
    let mut machine = Machine::new(Image::new(image), memory);
    if let Err(refusal) = begin(&mut machine, options) {
        say(&report::refused(refusal));
        return ExitCode::FAILURE;
    }
    let mut fuel = Fuel::new(options.fuel);
    let (answer, ticks) = run_to_end(&mut machine, &mut fuel, options.ticks);
    say(&report::ran(&machine, answer, ticks, &fuel, options.fuel));
    match answer {
        Ok(Answer::Done) => ExitCode::SUCCESS,
        Ok(_) => ExitCode::from(3),
        Err(_) => ExitCode::FAILURE,
    }
}

/// Loads, makes the host's functions known, and starts the outermost closure.
fn begin(machine: &mut Machine, options: &Options) -> Result<(), Refusal> {
    let outermost = machine.load()?;
    for &number in &options.callbacks {
        machine.set_builtin(number, Value::Callback { number, word: 0 })?;
    }
    machine.start(outermost, &[])
}

/// Runs until something else than its ticks ends a run, and counts all ticks.
fn run_to_end(machine: &mut Machine, fuel: &mut Fuel, ticks: u32) -> (Result<Answer, Refusal>, u64) {
    let mut taken = 0;
    loop {
        let outcome = machine.run(fuel, ticks);
        taken += u64::from(outcome.ticks);
        if outcome.answer != Ok(Answer::Paused) {
            return (outcome.answer, taken);
        }
    }
}
