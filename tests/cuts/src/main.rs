//! Stopping for lunch: decks run in parts by the compiled engine against one run, and the bench
//! host's trace, which is a cut at every attempt, against the interpreter:
//! `cuts SEED DRIVER BENCH [EMULATOR...]`.

#![forbid(unsafe_code)]

mod board;
mod cutter;
mod parts;
mod seen;
mod slips;
mod subject;
mod trace;

use compare::tally::{ended, Tally};
use std::process::ExitCode;
use std::{env, io};

fn main() -> ExitCode {
    let arguments: Vec<String> = env::args().skip(1).collect();
    let seed = arguments.first().and_then(|seed| seed.parse().ok());
    match (seed, arguments.as_slice()) {
        (Some(seed), [_, driver, bench, emulator @ ..]) => {
            let emulated = |program: &String| [emulator, std::slice::from_ref(program)].concat();
            ended("cuts", test(seed, emulated(driver), emulated(bench)))
        }
        _ => {
            eprintln!("usage: cuts SEED DRIVER BENCH [EMULATOR...]");
            ExitCode::FAILURE
        }
    }
}

/// Both parts of the test.
fn test(seed: u32, driver: Vec<String>, bench: Vec<String>) -> io::Result<Tally> {
    let mut tally = Tally::default();
    parts::test(seed, driver, &mut tally)?;
    trace::test(seed, bench, &mut tally)?;
    Ok(tally)
}
