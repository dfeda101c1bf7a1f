//! The words of the command line.

use std::str::FromStr;

use lucia::{LIVE_CELLS, STORE_CELLS};

pub const USAGE: &str = "usage: lucia [OPTIONS] < IMAGE

Loads an image, starts its outermost closure with no arguments and runs it to its end. Prints answer, ticks, fuel, result and the frames that are left, the top frame first.

  --fuel N        fuel lent (default 1000000)
  --ticks N       ticks of one run; a paused run is followed by the next (default 1000000)
  --live CELLS    length of the live stack, in cells of 16 bytes (default 4096, the most that is used)
  --store CELLS   length of the store, in cells (default 65536, the most that is used)
  --callback N    builtin N is function N of the host, which this program can't answer: it shows what it is asked and stops; may be given several times
  --help          prints this

A script that jumps in a circle and does nothing else takes no fuel and never ends.
Exit status: 0 done; 1 refused; 2 wrong use; 3 stopped before its end, out of fuel or at a function of the host.
";

pub enum Asked {
    Help,
    Run(Options),
}

#[derive(Debug, PartialEq, Eq)]
pub struct Options {
    pub fuel: i32,
    /// At least 1, so that every run gets on.
    pub ticks: u32,
    pub live: usize,
    pub store: usize,
    pub callbacks: Vec<u32>,
}

impl Options {
    pub fn parse(mut words: impl Iterator<Item = String>) -> Result<Asked, String> {
        let mut options =
            Options { fuel: 1_000_000, ticks: 1_000_000, live: LIVE_CELLS, store: STORE_CELLS, callbacks: Vec::new() };
        while let Some(name) = words.next() {
            match name.as_str() {
                "--help" | "-h" => return Ok(Asked::Help),
                "--fuel" => options.fuel = number(&name, words.next())?,
                "--ticks" => options.ticks = number(&name, words.next())?,
                "--live" => options.live = number(&name, words.next())?,
                "--store" => options.store = number(&name, words.next())?,
                "--callback" => options.callbacks.push(number(&name, words.next())?),
                _ => return Err(format!("`{name}` is not known")),
            }
        }
        if options.ticks == 0 { Err("`--ticks 0` never ends".into()) } else { Ok(Asked::Run(options)) }
    }
}

fn number<T: FromStr>(name: &str, word: Option<String>) -> Result<T, String> {
    let word = word.ok_or_else(|| format!("`{name}` needs a number"))?;
    word.parse().map_err(|_| format!("`{name} {word}`: no number that it can take"))
}

#[cfg(test)]
mod tests {
    use super::*;

    fn parse(line: &str) -> Result<Asked, String> {
        Options::parse(line.split_whitespace().map(String::from))
    }

    #[test]
    fn words_become_options() {
        let Ok(Asked::Run(options)) = parse("--fuel -5 --ticks 7 --live 8 --store 9 --callback 1 --callback 2") else {
            panic!("refused")
        };
        assert_eq!(options, Options { fuel: -5, ticks: 7, live: 8, store: 9, callbacks: vec![1, 2] });
        assert!(matches!(parse("--fuel 3 --help"), Ok(Asked::Help)));
    }

    #[test]
    fn wrong_use_is_said() {
        for line in ["--fuel", "--fuel x", "--fuel 2147483648", "--ticks -1", "--ticks 0", "--live -1", "image"] {
            assert!(parse(line).is_err(), "{line}");
        }
    }
}
