//! The commands: `agree` compares all three, and `time`, or no command, compares and then measures them.

use std::process::ExitCode;

use bench::time::Rounds;
use bench::{agree, scenarios};

const USAGE: &str = "usage: bench [time] [--quick | --keep] | bench agree";

/// What a run with --keep writes.
const KEPT: &str = concat!(env!("CARGO_MANIFEST_DIR"), "/TABLE.md");

/// The rounds of a full run.
const FULL: Rounds = Rounds {
    count: 501,
    second_each: 10,
};

/// The rounds of a quick run.
const QUICK: Rounds = Rounds {
    count: 51,
    second_each: 10,
};

/// Does what the arguments ask, and ends with an error status if the three do not agree.
fn main() -> ExitCode {
    let arguments: Vec<String> = std::env::args().skip(1).collect();
    let words: Vec<&str> = arguments.iter().map(String::as_str).collect();
    let rounds = match words.as_slice() {
        ["agree"] => None,
        [] | ["time"] => Some(FULL),
        ["--keep"] | ["time", "--keep"] => Some(FULL),
        ["--quick"] | ["time", "--quick"] => Some(QUICK),
        _ => {
            eprintln!("bench: {USAGE}");
            return ExitCode::FAILURE;
        }
    };
    if let Err(message) = agree::report() {
        eprintln!("bench: {message}");
        return ExitCode::FAILURE;
    }
    if let Some(rounds) = rounds {
        let table = scenarios::report(rounds);
        if words.contains(&"--keep") {
            let kept = format!("# The table of the last run that was kept\n\n{table}");
            if let Err(error) = std::fs::write(KEPT, kept) {
                eprintln!("bench: {KEPT}: {error}");
                return ExitCode::FAILURE;
            }
        }
    }
    ExitCode::SUCCESS
}
