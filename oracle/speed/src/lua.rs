//! The same loop in Lua 5.4, by its own clock; Lua need not be there.

use std::process::Command;

/// Nanoseconds a turn, the least of the rounds, or why there are none.
pub fn nanoseconds(turn: &str, turns: usize) -> String {
    match Command::new("lua5.4").args(["-e", &program(turn, turns)]).output() {
        Err(_) => "none here".into(),
        Ok(output) if output.status.success() => format!("{} ns", String::from_utf8_lossy(&output.stdout).trim()),
        Ok(output) => String::from_utf8_lossy(&output.stderr).into(),
    }
}

/// A function `work(n)` in 300 rounds; each gets so many turns that the clock, which counts microseconds, is fine enough.
fn program(work: &str, turns: usize) -> String {
    format!(
        "{work}
        local least = math.huge
        for _ = 1, 300 do
            local begin = os.clock()
            work({turns})
            least = math.min(least, os.clock() - begin)
        end
        print(string.format('%.1f', least * 1e9 / {turns}))"
    )
}
