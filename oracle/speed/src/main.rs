//! Our runs beside the Rust's `step`, and two loops beside Lua, on the same images in one run.

mod clock;
mod copies;
mod lua;
mod ours;
mod race;
mod rust;
mod scripts;
mod shared;

use std::process::ExitCode;

use race::{Figures, race};
use scripts::{Script, scripts};

fn main() -> ExitCode {
    // With a word, only the scripts that have it in their names: for a profiler.
    let word = std::env::args().nth(1).unwrap_or_default();
    match run(&word) {
        Ok(()) => ExitCode::SUCCESS,
        Err(reason) => {
            eprintln!("{reason}");
            ExitCode::FAILURE
        }
    }
}

fn run(word: &str) -> Result<(), String> {
    println!(
        "{:<44} {:>6} {:>7} {:>7} {:>8} {:>9} {:>9} {:>6} {:>9} {:>9}",
        "a turn", "turns", "ticks", "calls", "entry", "ours", "Rust", "faster", "Lua", "copies"
    );
    let mut ratios = Vec::new();
    for script in scripts().iter().filter(|script| script.name.contains(word)) {
        let figures = race(script).map_err(|what| format!("{}: {what}", script.name))?;
        ratios.push(figures.rust / figures.ours);
        println!("{}", line(script, &figures));
    }
    println!("least {:.2}, geometric mean {:.2}", least(&ratios), geometric_mean(&ratios));
    Ok(())
}

fn line(script: &Script, figures: &Figures) -> String {
    let Figures { ticks, calls, entry, ours, rust } = figures;
    let lua = script.lua.map_or_else(String::new, |text| lua::nanoseconds(text, script.turns));
    let copied = |cells| format!("{:.1} ns", copies::nanoseconds(cells, script.turns));
    let copies = script.captured.map_or_else(String::new, copied);
    format!(
        "{:<44} {:>6} {ticks:>7} {calls:>7} {entry:>5.1} µs {ours:>6.1} ns {rust:>6.1} ns {:>6.2} {lua:>9} {copies:>9}",
        script.name,
        script.turns,
        rust / ours
    )
}

fn least(ratios: &[f64]) -> f64 {
    ratios.iter().copied().fold(f64::INFINITY, f64::min)
}

fn geometric_mean(ratios: &[f64]) -> f64 {
    (ratios.iter().map(|ratio| ratio.ln()).sum::<f64>() / ratios.len() as f64).exp()
}
