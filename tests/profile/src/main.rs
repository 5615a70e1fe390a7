//! The compiled check of the service profile against the interpreter's: `profile COUNT SEED DRIVER...`.

#![forbid(unsafe_code)]

mod cases;
mod judge;
mod slips;

use compare::driver::Driver;
use compare::tally::{ended, Tally};
use judge::Judge;
use std::process::ExitCode;
use std::{env, io};

fn main() -> ExitCode {
    let arguments: Vec<String> = env::args().skip(1).collect();
    let number = |at: usize| arguments.get(at).and_then(|word| word.parse().ok());
    match (number(0), number(1)) {
        (Some(count), Some(seed)) if arguments.len() > 2 => {
            let driver = Driver::new(arguments[2..].to_vec());
            ended("profile", compare_all(&driver, count, seed))
        }
        _ => {
            eprintln!("usage: profile COUNT SEED DRIVER [ARGUMENT...]");
            ExitCode::FAILURE
        }
    }
}

fn compare_all(driver: &Driver, count: u64, seed: u64) -> io::Result<Tally> {
    let mut judge = Judge::new(driver);
    cases::all(count, seed, &mut |list| judge.take(list));
    judge.end()
}
