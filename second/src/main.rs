//! The commands: `run` makes the calls on standard input; `make`, `cases`, `long`, `levels`, `fragments` and `entries` put
//! calls out.

use std::io::{self, BufReader, BufWriter, Read, Write};
use std::process::ExitCode;

use second::answer;
use second::call::{next_call, put_call, Call, Trouble};
use second::make::Maker;
use second::{cases_convert, cases_convert_refused, cases_levels, cases_wide_counters};
use second::{cases_grid, cases_pointer, cases_transfer, long};

const USAGE: &str = "usage: second run < calls | second make SEED COUNT [whole | 3] > calls \
    | second cases > calls | second long > calls | second levels > calls | second fragments > calls \
    | second entries > calls";

/// An input that counts the bytes that were read from it.
struct Counting<Input> {
    input: Input,
    count: u64,
}

impl<Input: Read> Read for Counting<Input> {
    fn read(&mut self, bytes: &mut [u8]) -> io::Result<usize> {
        let came = self.input.read(bytes)?;
        self.count += came as u64;
        Ok(came)
    }
}

/// Makes each call on the input and prints one line a call, until the input ends or a call is bad. A bad call's line has
/// its number, from 1 on, the offset of its first byte, from 0 on, and why it is bad.
fn run(output: &mut impl Write) -> Result<(), String> {
    let mut input = Counting {
        input: BufReader::new(io::stdin().lock()),
        count: 0,
    };
    let mut number: u64 = 0;
    loop {
        number += 1;
        let offset = input.count;
        match next_call(&mut input) {
            Ok(None) => return Ok(()),
            Ok(Some(mut call)) => {
                let outcome = answer::make(&mut call)?;
                let line = answer::line(&call, &outcome);
                writeln!(output, "{line}").map_err(|error| error.to_string())?;
            }
            Err(Trouble::BadCall(why)) => {
                return writeln!(output, "bad call {number} at byte {offset}: {why}")
                    .map_err(|error| error.to_string());
            }
            Err(Trouble::Input(error)) => return Err(error.to_string()),
        }
    }
}

/// Puts one call out.
fn put(output: &mut impl Write, call: &Call) -> Result<(), String> {
    put_call(output, call).map_err(|error| error.to_string())
}

/// Puts out COUNT calls that depend on SEED alone, made by the given maker.
fn make(
    maker: fn(u64) -> Maker,
    seed: &str,
    count: &str,
    output: &mut impl Write,
) -> Result<(), String> {
    let seed: u64 = seed.parse().map_err(|_| USAGE)?;
    let count: u64 = count.parse().map_err(|_| USAGE)?;
    let mut maker = maker(seed);
    for _ in 0..count {
        put(output, &maker.next_call())?;
    }
    Ok(())
}

/// Puts out the calls of the cases of document 01.
fn cases(output: &mut impl Write) -> Result<(), String> {
    for (_, call) in cases_pointer::all().iter().chain(cases_grid::all().iter()) {
        put(output, call)?;
    }
    Ok(())
}

/// Puts out the calls of the cases of document 02, A8.
fn levels(output: &mut impl Write) -> Result<(), String> {
    let all = [
        cases_levels::all(),
        cases_wide_counters::all(),
        cases_convert::all(),
        cases_convert_refused::all(),
    ];
    for (_, call) in all.iter().flatten() {
        put(output, call)?;
    }
    Ok(())
}

/// Puts out the calls of the cases of document 02, A1.
fn fragments(output: &mut impl Write) -> Result<(), String> {
    for (_, call) in &cases_transfer::all() {
        put(output, call)?;
    }
    Ok(())
}

/// Puts out the calls on pointer rows with data 1 at stuck cells, and with several active entries.
fn entries(output: &mut impl Write) -> Result<(), String> {
    for (_, call) in &cases_pointer::kept_entries() {
        put(output, call)?;
    }
    Ok(())
}

/// Puts out the calls with long buffers.
fn put_long(output: &mut impl Write) -> Result<(), String> {
    for call in &long::all() {
        put(output, call)?;
    }
    Ok(())
}

/// Does what the arguments ask, flushes what was printed, and ends with an error status if it failed.
fn main() -> ExitCode {
    let arguments: Vec<String> = std::env::args().skip(1).collect();
    let words: Vec<&str> = arguments.iter().map(String::as_str).collect();
    let mut output = BufWriter::new(io::stdout().lock());
    let done = match words.as_slice() {
        ["run"] => run(&mut output),
        ["make", seed, count] => make(Maker::new, seed, count, &mut output),
        ["make", seed, count, "whole"] => make(Maker::of_whole_blocks, seed, count, &mut output),
        ["make", seed, count, "3"] => make(Maker::of_three_levels, seed, count, &mut output),
        ["cases"] => cases(&mut output),
        ["long"] => put_long(&mut output),
        ["levels"] => levels(&mut output),
        ["fragments"] => fragments(&mut output),
        ["entries"] => entries(&mut output),
        _ => Err(String::from(USAGE)),
    };
    let flushed = output.flush().map_err(|error| error.to_string());
    match done.and(flushed) {
        Ok(()) => ExitCode::SUCCESS,
        Err(message) => {
            eprintln!("second: {message}");
            ExitCode::FAILURE
        }
    }
}
