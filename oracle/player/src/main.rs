//! The commands: plays case files and random lists of calls, assembles and disassembles images.

use std::{
    fs,
    io::{self, Read, Write},
    process::ExitCode,
    time::{Duration, Instant},
};

use player::{
    assemble::{assemble, disassemble},
    call_rows, case,
    driver::Driver,
    fuel_rows, generate, image, image_rows, ints_rows,
    record::record,
    rows::Rows,
    soak::Soak,
    text,
};

const USAGE: &str = "usage: player cases FILES..
       player play FILE
       player random --from SEED --lists N [--seconds S]
       player images --from SEED --lists N
       player fuel questions|answers > FILE
       player ints questions|answers > FILE
       player images questions|answers > FILE
       player calls questions|answers > FILE
       player record --from SEED --lists N > FILE
       player rows FILES.. > FILE
       player rows --from SEED --lists N > FILE
       player assemble < TEXT > IMAGE
       player assemble FILE > IMAGE
       player disassemble < IMAGE > TEXT";

type Outcome = Result<(), String>;

fn main() -> ExitCode {
    let args: Vec<String> = std::env::args().skip(1).collect();
    let args: Vec<&str> = args.iter().map(String::as_str).collect();
    let outcome = match args.as_slice() {
        ["cases", files @ ..] if !files.is_empty() => cases(files),
        ["play", file] => play(file),
        ["random", options @ ..] => Options::parse(options).and_then(|options| random(&options)),
        ["ints", "questions"] => write(ints_replayed(ints_rows::Question::bytes)),
        ["ints", "answers"] => write(ints_replayed(ints_rows::Question::answer)),
        ["images", "questions"] => write(images_replayed(image_rows::question)),
        ["images", "answers"] => write(images_replayed(image_rows::answer)),
        ["images", options @ ..] => Options::parse(options).and_then(|options| images(&options)),
        ["fuel", "questions"] => write(fuel_replayed(fuel_rows::Question::bytes)),
        ["fuel", "answers"] => write(fuel_replayed(fuel_rows::Question::answer)),
        ["calls", "questions"] => write(call_rows::rows().questions),
        ["calls", "answers"] => write(call_rows::rows().answers),
        ["record", options @ ..] => Options::parse(options).and_then(|options| write(recorded(&options))),
        ["rows", options @ ..] if options.first().is_some_and(|first| first.starts_with("--")) => {
            Options::parse(options).and_then(|options| random_rows(&options))
        }
        ["rows", files @ ..] if !files.is_empty() => case_rows(files),
        ["assemble"] => assemble_stdin(),
        ["assemble", file] => first_image(file).and_then(write),
        ["disassemble"] => disassemble_stdin(),
        _ => Err(USAGE.into()),
    };
    match outcome {
        Ok(()) => ExitCode::SUCCESS,
        Err(reason) => {
            eprintln!("{reason}");
            ExitCode::FAILURE
        }
    }
}

struct Options {
    from: u64,
    lists: u64,
    seconds: Option<u64>,
}

impl Options {
    fn parse(args: &[&str]) -> Result<Options, String> {
        let mut options = Options { from: 0, lists: 1_000, seconds: None };
        for pair in args.chunks(2) {
            let &[name, number] = pair else { return Err(USAGE.into()) };
            let number = number.parse().map_err(|_| format!("`{number}` is no number"))?;
            match name {
                "--from" => options.from = number,
                "--lists" => options.lists = number,
                "--seconds" => options.seconds = Some(number),
                _ => return Err(USAGE.into()),
            }
        }
        Ok(options)
    }

    /// The seeds, up to the last second.
    fn seeds(&self) -> impl Iterator<Item = u64> {
        let begin = Instant::now();
        let limit = self.seconds.map(Duration::from_secs);
        (self.from..self.from + self.lists).take_while(move |_| limit.is_none_or(|limit| begin.elapsed() < limit))
    }
}

fn parse_file(file: &str) -> Result<Vec<case::Case>, String> {
    let text = fs::read_to_string(file).map_err(|error| format!("{file}: {error}"))?;
    case::parse(file, &text).map_err(|malformed| malformed.to_string())
}

/// Plays all cases of the files, with a line for each file.
fn cases(files: &[&str]) -> Outcome {
    let (mut passed, mut failed) = (0, 0);
    for file in files {
        let cases = parse_file(file)?;
        let played = cases.iter().map(|case| case.play(&mut Driver::new(), &mut |_, _| ()));
        let failures: Vec<case::Failure> = played.filter_map(Result::err).collect();
        failures.iter().for_each(|failure| println!("{failure}"));
        println!("{file}: {} passed, {} failed", cases.len() - failures.len(), failures.len());
        passed += cases.len() - failures.len();
        failed += failures.len();
    }
    println!("{passed} passed, {failed} failed");
    if failed == 0 { Ok(()) } else { Err(String::from("some cases failed")) }
}

/// Plays a file's first case and shows each call with what it leaves.
fn play(file: &str) -> Outcome {
    let cases = parse_file(file)?;
    let case = cases.first().ok_or_else(|| format!("{file} has no case"))?;
    println!("case {}: {}", case.name, case.words);
    let played = case.play(&mut Driver::new(), &mut |step, after| {
        println!("\n{}", case::call_text(&step.call));
        after.dump(&step.call).iter().for_each(|line| println!("    {line}"));
    });
    played.map_err(|failure| failure.to_string())
}

/// Plays random lists with all checks and shows how often everything occurred.
fn random(options: &Options) -> Outcome {
    let begin = Instant::now();
    let mut soak = Soak::default();
    for seed in options.seeds() {
        if let Err(failure) = soak.list(seed, &|| Box::new(Driver::new())) {
            let file = format!("seed-{seed}.case");
            fs::write(&file, &failure.case).map_err(|error| format!("{file}: {error}"))?;
            return Err(format!("{}\nkept as {file}", failure.report));
        }
    }
    println!("{}", soak.tally());
    println!("{:.1} seconds", begin.elapsed().as_secs_f64());
    Ok(())
}

/// Counts the reader's answers to damaged images.
fn images(options: &Options) -> Outcome {
    let mut counts = [0_u64; 5];
    for seed in options.seeds() {
        let damaged = image_rows::damaged_image(seed);
        counts[image_rows::refusal(&damaged) as usize] += 1;
    }
    println!("{} damaged images", counts.iter().sum::<u64>());
    for (number, count) in counts.iter().enumerate() {
        println!("{count:>10} {}", text::answer(number as u32));
    }
    Ok(())
}

/// What `fuel_replay` is asked, or what the Rust answers to it.
fn fuel_replayed(bytes: fn(&fuel_rows::Question) -> Vec<u8>) -> Vec<u8> {
    fuel_rows::questions(1, 2_048).iter().flat_map(bytes).collect()
}

/// What `ints_replay` is asked, or what the oracle's stand-in answers to it.
fn ints_replayed(bytes: fn(&ints_rows::Question) -> Vec<u8>) -> Vec<u8> {
    ints_rows::questions(1, 2_048).iter().flat_map(bytes).collect()
}

/// What `images_replay` is asked, or what the reader here answers to it.
fn images_replayed(bytes: fn(&[u8]) -> Vec<u8>) -> Vec<u8> {
    image_rows::images().iter().flat_map(|image| bytes(image)).collect()
}

/// Random lists, two for each seed, as a program in C reads them; the first call of a list has a bit that says so.
fn recorded(options: &Options) -> Vec<u8> {
    let mut bytes = Vec::new();
    for seed in options.seeds() {
        for of in [generate::list, generate::tight_list] {
            let mut is_first = true;
            of(seed, &mut Driver::new(), &mut |step, after| {
                let at = bytes.len();
                bytes.extend(record(step, after));
                bytes[at + 4] = u8::from(std::mem::take(&mut is_first));
            });
        }
    }
    bytes
}

/// Random lists as rows of antt, and what they hold.
fn random_rows(options: &Options) -> Outcome {
    let mut rows = Rows::default();
    options.seeds().for_each(|seed| rows.random(seed));
    write_rows(&rows)
}

/// The cases of the files as rows of antt.
fn case_rows(files: &[&str]) -> Outcome {
    let mut rows = Rows::default();
    for file in files {
        for case in parse_file(file)? {
            let mut list = Vec::new();
            let played = case.play(&mut Driver::new(), &mut |step, after| list.push((step.clone(), after.clone())));
            played.map_err(|failure| failure.to_string())?;
            rows.list(&format!("{}: {}", case.name, case.words), &list);
        }
    }
    write_rows(&rows)
}

fn write_rows(rows: &Rows) -> Outcome {
    eprintln!("{}", rows.tally());
    write(rows.text().into_bytes())
}

fn write(bytes: Vec<u8>) -> Outcome {
    io::stdout().write_all(&bytes).map_err(|error| error.to_string())
}

fn stdin() -> Result<Vec<u8>, String> {
    let mut bytes = Vec::new();
    io::stdin().read_to_end(&mut bytes).map_err(|error| error.to_string())?;
    Ok(bytes)
}

fn assemble_stdin() -> Outcome {
    let text = String::from_utf8(stdin()?).map_err(|error| error.to_string())?;
    let image = assemble(&text).map_err(|error| error.to_string())?;
    write(image)
}

/// The first image of a case file.
fn first_image(file: &str) -> Result<Vec<u8>, String> {
    let cases = parse_file(file)?;
    let image = cases.iter().find_map(case::Case::image);
    image.map(<[u8]>::to_vec).ok_or_else(|| format!("{file} has no image"))
}

fn disassemble_stdin() -> Outcome {
    let image = stdin()?;
    image::parse(&image).map_err(|number| format!("the image is refused with {number}"))?;
    print!("{}", disassemble(&image));
    Ok(())
}
