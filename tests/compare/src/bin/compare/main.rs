//! Compares the compiled engine with the interpreter, byte for byte: `compare SEED DRIVER...`.

#![forbid(unsafe_code)]

mod cases;
mod seen;

use cases::Case;
use compare::call::Call;
use compare::difference::explain;
use compare::engine::Engine;
use compare::tally::{ended, Tally};
use seen::Seen;
use std::process::ExitCode;
use std::{env, io};

/// Cases in one process of the driver.
const BATCH: usize = 4000;

fn main() -> ExitCode {
    let mut arguments = env::args().skip(1);
    let seed = arguments.next().and_then(|seed| seed.parse().ok());
    let command: Vec<String> = arguments.collect();
    let seed = match seed {
        Some(seed) if !command.is_empty() => seed,
        _ => {
            eprintln!("usage: compare SEED DRIVER [ARGUMENT...]");
            return ExitCode::FAILURE;
        }
    };
    ended("compare", compare_all(&Engine::new(command), seed))
}

/// Runs every case and tells what they showed.
fn compare_all(engine: &Engine, seed: u32) -> io::Result<Tally> {
    let [decks, singles] = [cases::decks(seed).count(), cases::singles(seed).count()];
    println!("seed {seed}: {decks} decks, {singles} single attempts");
    let (mut seen, mut different) = (Seen::new(), Vec::new());
    let mut cases = cases::decks(seed).chain(cases::singles(seed));
    loop {
        let batch: Vec<Case> = cases.by_ref().take(BATCH).collect();
        if batch.is_empty() || !compare_batch(engine, &batch, &mut seen, &mut different)? {
            break;
        }
    }
    if let Some(case) = different.first() {
        let difference = explain(engine, &case.call())?;
        println!("first difference: {case}\n  {difference}");
    }
    let missing = seen.missing();
    missing.iter().for_each(|what| println!("missing: {what}"));
    seen.print();
    Ok(Tally {
        passed: seen.passed,
        failed: different.len() + missing.len(),
    })
}

/// Compares a batch; false when the driver died, which ends the comparison.
fn compare_batch(
    engine: &Engine,
    batch: &[Case],
    seen: &mut Seen,
    different: &mut Vec<Case>,
) -> io::Result<bool> {
    let calls: Vec<Call> = batch.iter().map(Case::call).collect();
    let answers = engine.run(&calls)?;
    for (at, (case, call)) in batch.iter().zip(&calls).enumerate() {
        let expected = call.interpreted();
        match answers.get(at) {
            Some(answer) if answer.left == expected => seen.count(call, &expected),
            _ => different.push(*case),
        }
    }
    Ok(answers.len() == calls.len())
}
