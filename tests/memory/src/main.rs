//! Runs with a memory on the bus: the compiled engine against the interpreter, byte for byte, and
//! against runs without a memory and over a part of the samples:
//! `memory SEED DRIVER MEMORY_DRIVER [EMULATOR...]`.

#![forbid(unsafe_code)]

mod case;
mod seen;
mod slips;
mod subject;
mod traffic;

use case::Case;
use compare::call::Call;
use compare::describe::wrong;
use compare::driver::Driver;
use compare::engine::Engine;
use compare::memory::{Left, WithMemory};
use compare::tally::{ended, Tally};
use seen::Seen;
use std::process::ExitCode;
use std::{env, io};

const DECKS: u64 = 200_000;
/// Decks in one process of a driver.
const BATCH: u64 = 4000;
/// Progress is told after so many decks.
const TOLD: u64 = 40_000;

/// The compiled engine, without a memory and with one.
struct Sides {
    without: Engine,
    with: Driver,
}

fn main() -> ExitCode {
    let arguments: Vec<String> = env::args().skip(1).collect();
    let asked = match &arguments[..] {
        [seed, without, with, emulator @ ..] => seed.parse().ok().map(|seed| {
            let command = |driver: &String| [emulator, std::slice::from_ref(driver)].concat();
            let sides = Sides {
                without: Engine::new(command(without)),
                with: Driver::new(command(with)),
            };
            (sides, seed)
        }),
        _ => None,
    };
    match asked {
        Some((sides, seed)) => ended("memory", test(&sides, seed)),
        None => {
            eprintln!("usage: memory SEED DRIVER MEMORY_DRIVER [EMULATOR...]");
            ExitCode::FAILURE
        }
    }
}

/// Runs all decks; the first of them have to tell the slips.
fn test(sides: &Sides, seed: u32) -> io::Result<Tally> {
    println!("seed {seed}: {DECKS} decks");
    let (mut seen, mut tally) = (Seen::default(), Tally::default());
    for from in (0..DECKS).step_by(BATCH as usize) {
        let seeds = (from..from + BATCH).map(|at| u64::from(seed) << 32 | at);
        let cases: Vec<Case> = seeds.map(Case::new).collect();
        if from == 0 {
            tell(&cases, &mut tally);
        }
        whole_runs(sides, &cases, &mut tally)?;
        parts(sides, &cases, &mut tally)?;
        without_memory(sides, &cases, &mut tally)?;
        cases.iter().for_each(|case| seen.count(case));
        if (from + BATCH) % TOLD == 0 {
            println!("{} decks", from + BATCH);
        }
        if tally.failed > 0 {
            break;
        }
    }
    seen.print();
    // Of all decks alone: a failure ends them early.
    if tally.failed == 0 {
        let missing = seen.missing().into_iter();
        missing.for_each(|what| tally.check(Some(what)));
    }
    Ok(tally)
}

/// Each deck under each wrong rule, of which what is left behind has to tell.
fn tell(cases: &[Case], tally: &mut Tally) {
    let slips = slips::all();
    let mut unnoticed = Vec::new();
    for slip in &slips {
        let told = cases
            .iter()
            .filter(|case| case.call.watched(&slip.rules, |_| {}) != case.left);
        let told = told.count();
        println!("{told:>7} of {} decks tell: {}", cases.len(), slip.name);
        if told == 0 {
            unnoticed.push(slip.name);
        }
    }
    tally.slips(slips.len(), unnoticed.into_iter());
}

/// The engine leaves behind what the interpreter does.
fn whole_runs(sides: &Sides, cases: &[Case], tally: &mut Tally) -> io::Result<()> {
    let calls: Vec<WithMemory> = cases.iter().map(|case| case.call.clone()).collect();
    sides.with.judge(&calls, |at, answer| {
        let case = &cases[at];
        let wrong = case.left.wrong(answer.map(|answer| &answer.left));
        tally.check(wrong.map(|wrong| format!("{}: {wrong}", case.subject)));
    })
}

/// A run over the first samples is the beginning of the whole run.
fn parts(sides: &Sides, cases: &[Case], tally: &mut Tally) -> io::Result<()> {
    let parts = cases.iter().filter_map(|case| Some((case, case.part()?)));
    let (cases, parts): (Vec<&Case>, Vec<(WithMemory, Left)>) = parts.unzip();
    let (calls, lefts): (Vec<WithMemory>, Vec<Left>) = parts.into_iter().unzip();
    sides.with.judge(&calls, |at, answer| {
        let wrong = lefts[at].wrong(answer.map(|answer| &answer.left));
        tally.check(wrong.map(|wrong| format!("{}, a part: {wrong}", cases[at].subject)));
    })
}

/// The run without a memory on the lines that the attempts saw is the same.
fn without_memory(sides: &Sides, cases: &[Case], tally: &mut Tally) -> io::Result<()> {
    let calls = cases
        .iter()
        .filter_map(|case| Some((case, case.without_memory()?)));
    let (cases, calls): (Vec<&Case>, Vec<Call>) = calls.unzip();
    let answers = sides.without.run(&calls)?;
    for (at, case) in cases.iter().enumerate() {
        let wrong = wrong(&case.left.left, answers.get(at).map(|answer| &answer.left));
        tally.check(wrong.map(|wrong| format!("{}, without memory: {wrong}", case.subject)));
    }
    Ok(())
}
