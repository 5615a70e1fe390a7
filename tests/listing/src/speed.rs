//! The time for a line: it has to be the same in short and in long texts.

use crate::call::{Call, Function};
use crate::random::Random;
use crate::rules::{bytes, Rules};
use compare::driver::Driver;
use std::io;

const LINES: [usize; 3] = [256, 1024, 2048];
/// Each is timed so often, and the best counts.
const ROUNDS: usize = 300;

/// The longest time for a line by the shortest, over the three lengths; for the assembler and the lister.
pub fn ratios(driver: &Driver, rules: &Rules, told: bool) -> io::Result<[f64; 2]> {
    let mut ratios = [0.0; 2];
    for (ratio, function) in ratios.iter_mut().zip([Function::Assemble, Function::List]) {
        let times = best(driver, rules, &calls(rules, function))?;
        let each = times
            .iter()
            .zip(LINES)
            .map(|(time, lines)| *time as f64 / lines as f64);
        let each: Vec<f64> = each.collect();
        for (time, lines) in each.iter().zip(LINES).filter(|_| told) {
            println!("{function:?}, {lines} lines: {time:.1} ns for a line");
        }
        let most = each.iter().copied().fold(0.0, f64::max);
        *ratio = most / each.iter().copied().fold(f64::MAX, f64::min);
    }
    Ok(ratios)
}

/// The same 256 words again and again, so that the lines differ by their addresses alone.
fn calls(rules: &Rules, function: Function) -> Vec<Call> {
    let mut random = Random::new(1);
    let mut some = Vec::new();
    while some.len() < LINES[0] {
        let word = random.below(1 << 22) as u32;
        some.extend(rules.taken_apart(word).map(|_| word));
    }
    let calls = LINES.iter().map(|lines| {
        let words = bytes(&some.repeat(lines / LINES[0]));
        let text = rules.list(&words).expect("the words are listed");
        match function {
            Function::Assemble => Call {
                function,
                input: text,
                output: vec![0; words.len()],
            },
            Function::List => Call {
                function,
                output: vec![0; text.len()],
                input: words,
            },
        }
    });
    calls.collect()
}

/// The best nanoseconds of each call. They are made in turn, so that a machine that is slow for a while is slow for all.
fn best(driver: &Driver, rules: &Rules, calls: &[Call]) -> io::Result<Vec<u64>> {
    let answers = driver.run(&vec![calls; ROUNDS].concat())?;
    let mut best = vec![u64::MAX; calls.len()];
    let expected: Vec<_> = calls.iter().map(|call| call.by(rules)).collect();
    for (at, (left, nanoseconds)) in answers.iter().enumerate() {
        let at = at % calls.len();
        // A wrong answer has no time.
        best[at] = best[at].min(if *left == expected[at] {
            *nanoseconds
        } else {
            0
        });
    }
    if answers.len() < calls.len() * ROUNDS || best.contains(&0) {
        let error = "the compiled function is wrong";
        return Err(io::Error::new(io::ErrorKind::Other, error));
    }
    Ok(best)
}
