//! Checks counted, and failures told.

use std::fmt::Display;
use std::process::ExitCode;

/// Failures that are told; the rest are counted.
const TOLD: usize = 25;

/// How many checks passed and failed.
#[derive(Default)]
pub struct Tally {
    /// Passed.
    pub passed: usize,
    /// Failed.
    pub failed: usize,
}

impl Tally {
    /// Counts a check that found nothing wrong, or what it found.
    pub fn check(&mut self, wrong: Option<String>) {
        match wrong {
            None => self.passed += 1,
            Some(line) => {
                self.failed += 1;
                if self.failed <= TOLD {
                    println!("{line}");
                }
            }
        }
    }

    /// Counts the slips that were noticed, of so many; one that was not is a failure.
    pub fn slips<'a>(&mut self, all: usize, unnoticed: impl ExactSizeIterator<Item = &'a str>) {
        let noticed = all - unnoticed.len();
        println!("{noticed} of {all} slips noticed");
        self.passed += noticed;
        for name in unnoticed {
            self.check(Some(format!("nothing notices: {name}")));
        }
    }
}

/// Prints a program's counts, or why it has none, and gives its status.
pub fn ended(program: &str, result: Result<Tally, impl Display>) -> ExitCode {
    match result {
        Ok(tally) => {
            println!("{} passed, {} failed", tally.passed, tally.failed);
            ExitCode::from(u8::from(tally.failed > 0))
        }
        Err(error) => {
            eprintln!("{program}: {error}");
            ExitCode::FAILURE
        }
    }
}
