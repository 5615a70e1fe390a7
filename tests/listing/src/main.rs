//! The compiled assembler and lister against ones that are written from the paper and the manual alone:
//! `listing compare COUNT SEED DRIVER...` or `listing bench DRIVER...`.

#![forbid(unsafe_code)]

mod call;
mod cases;
mod judge;
mod line;
mod random;
mod rules;
mod slips;
mod speed;
mod summary;
mod vectors;

use compare::driver::Driver;
use compare::tally::{ended, Tally};
use judge::Judge;
use rules::Rules;
use std::process::ExitCode;
use std::{env, io};

/// The time for a line may differ so much, as it is benched and in the gate, where a machine may be busy.
const EVEN: f64 = 1.2;
const ABOUT_EVEN: f64 = 2.0;

fn main() -> ExitCode {
    let arguments: Vec<String> = env::args().skip(1).collect();
    let number = |at: usize| arguments.get(at).and_then(|word| word.parse().ok());
    let driver = |from: usize| Driver::new(arguments[from..].to_vec());
    match (arguments.first().map(String::as_str), number(1), number(2)) {
        (Some("compare"), Some(count), Some(seed)) if arguments.len() > 3 => {
            ended("listing", compare_all(&driver(3), count, seed as u64))
        }
        (Some("bench"), ..) if arguments.len() > 1 => ended("listing", bench(&driver(1))),
        _ => {
            eprintln!("usage: listing compare COUNT SEED DRIVER [ARGUMENT...]\n       listing bench DRIVER [ARGUMENT...]");
            ExitCode::FAILURE
        }
    }
}

/// Every vector and case, then whether the time grows with the lines.
fn compare_all(driver: &Driver, count: usize, seed: u64) -> io::Result<Tally> {
    let rules = Rules::new();
    let mut judge = Judge::new(driver, &rules);
    vectors::all(&mut |case| judge.take(case));
    cases::all(&rules, seed, count, &mut |case| judge.take(case));
    let mut tally = judge.end()?;
    // Work that grew by the square would be at 8. What else runs on the machine can only add, so the best of some counts.
    let mut best = [f64::MAX; 2];
    for _ in 0..5 {
        let ratios = speed::ratios(driver, &rules, false)?;
        best = [0, 1].map(|at| best[at].min(ratios[at]));
        if best.iter().all(|ratio| *ratio < ABOUT_EVEN) {
            break;
        }
    }
    for ratio in best {
        tally.check(
            (ratio >= ABOUT_EVEN).then(|| format!("the time for a line grows {ratio:.2} times")),
        );
    }
    Ok(tally)
}

fn bench(driver: &Driver) -> io::Result<Tally> {
    let mut tally = Tally::default();
    for ratio in speed::ratios(driver, &Rules::new(), true)? {
        println!("longest / shortest: {ratio:.2}");
        tally.check(
            (ratio > EVEN).then(|| format!("the times for a line differ by more than {EVEN}")),
        );
    }
    Ok(tally)
}
