//! Runs the vectors of `vectors.txt` through the compiled engine and the interpreter:
//! `instructions DRIVER...`.

#![forbid(unsafe_code)]

mod setting;
mod vector;

use compare::call::Call;
use compare::describe::{wrong, DATA_IN, WAIT};
use compare::engine::Engine;
use compare::listing;
use compare::tally::{ended, Tally};
use interpreter::Marking;
use setting::Setting;
use std::env;
use std::process::ExitCode;
use vector::Vector;

fn main() -> ExitCode {
    let command: Vec<String> = env::args().skip(1).collect();
    if command.is_empty() {
        eprintln!("usage: instructions DRIVER [ARGUMENT...]");
        return ExitCode::FAILURE;
    }
    ended("instructions", run_all(&Engine::new(command)))
}

/// Runs every vector on both sides, each with the rest low and high.
fn run_all(engine: &Engine) -> Result<Tally, String> {
    let vectors = vector::read(include_str!("../vectors.txt"))?;
    let settings = settings(&vectors)?;
    let calls = settings.iter().map(|setting| setting.call.clone());
    let calls: Vec<Call> = calls.collect();
    let mut tally = Tally {
        failed: missing(&vectors),
        ..Tally::default()
    };
    for (side, lefts) in engine.both(&calls).map_err(|error| error.to_string())? {
        for (at, setting) in settings.iter().enumerate() {
            let wrong = wrong(&setting.expected, lefts.get(at));
            tally.check(wrong.map(|wrong| format!("{}, {side}: {wrong}", setting.title())));
        }
    }
    let count = vectors.len();
    println!("{count} vectors, the rest low and high, by engine and interpreter");
    Ok(tally)
}

/// Two settings for each vector: what it does not name low, then high.
fn settings(vectors: &[Vector]) -> Result<Vec<Setting<'_>>, String> {
    let both = |vector| [(vector, false), (vector, true)];
    let settings = vectors.iter().flat_map(both).map(|(vector, high)| {
        let setting = Setting::new(vector, high);
        setting.map_err(|error| format!("line {}: {error}", vector.line))
    });
    settings.collect()
}

/// Counts and tells the instructions without a vector, and the vectors under a wrong key.
fn missing(vectors: &[Vector]) -> usize {
    let mut missing = 0;
    for vector in vectors {
        if listing::key((vector.modified() >> 8) as u8).as_ref() != Some(&vector.key) {
            println!("line {}: not a word of {}", vector.line, vector.key);
            missing += 1;
        }
    }
    for key in listing::keys() {
        let mut own = vectors.iter().filter(|vector| vector.key == key);
        let shown = |vector: &Vector| match vector.gives("answer") {
            Some(answer) => key == listing::LEFT_OUT && answer == 6,
            None => vector.gives("request").unwrap_or(0) >> 16 < WAIT,
        };
        if !own.any(shown) {
            println!("{key}: no vector");
            missing += 1;
        }
    }
    missing + without_crosswise(vectors) + without_q1(vectors)
}

/// Counts and tells the codes with two pairs that no vector has crosswise, with a even and with a odd.
fn without_crosswise(vectors: &[Vector]) -> usize {
    let mut missing = 0;
    for top in (0..=255).filter(|&top| listing::pairs(top)) {
        for a in [2, 3] {
            let word = u32::from(top) << 8 | (a ^ 1) << 4 | a;
            if !vectors.iter().any(|vector| vector.word == word) {
                println!("{top:02X}: no crosswise vector with a {a}");
                missing += 1;
            }
        }
    }
    missing
}

/// Counts and tells the input codes that no vector has as an RMW under CP1621B, with SYNC falling and
/// with SYNC as it was.
fn without_q1(vectors: &[Vector]) -> usize {
    let mut missing = 0;
    for top in 0xE0..=0xE3 {
        for sync in [Some(0), None] {
            let shown = |vector: &&Vector| {
                let rmw = vector.word >> 8 == top && vector.word & 0xC0 == 0x40;
                let completes = vector.gives("request").unwrap_or(0) >> 16 == DATA_IN;
                rmw && completes && vector.marking == Marking::Cp1621b
            };
            let mut shown = vectors.iter().filter(shown);
            if !shown.any(|vector| vector.gives("SYNC") == sync) {
                println!("{top:02X}: no RMW vector under CP1621B that leaves SYNC {sync:?}");
                missing += 1;
            }
        }
    }
    missing
}
