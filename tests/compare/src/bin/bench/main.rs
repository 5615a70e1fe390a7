//! Times the compiled engine and the interpreter on the same decks, and counts their instructions;
//! then the engine with a memory and without one: `bench DRIVER MEMORY_DRIVER [EMULATOR...]`.

#![forbid(unsafe_code)]

mod memory;

use compare::call::Call;
use compare::deck::{largest, Sections};
use compare::engine::Engine;
use interpreter::STATE_BYTES;
use std::ops::Range;
use std::process::{Command, ExitCode};
use std::time::Instant;
use std::{env, fs, io};

/// Each deck is run so often by the one and the other, and all decks so often in turn: other work
/// on the machine slows both. The fastest run of each deck counts.
const ROUNDS: usize = 10;
const TURNS: usize = 12;
/// The seeds of the decks that choices were made on, and of others.
const DECKS: Range<u64> = 0..8;
const OTHERS: Range<u64> = 100..124;
/// The empty deck is run so often for one time.
const EMPTY_RUNS: usize = 1000;
/// The only argument of this program where it runs the decks whose instructions are counted.
const INTERPRETED: &str = "interpreted";
/// What the counter writes.
const COUNTED: &str = "target/counted";
/// Elsewhere an emulator runs the engine: its times say nothing, and it cannot be counted.
const NATIVE: bool = cfg!(target_arch = "x86_64");

fn main() -> ExitCode {
    let arguments: Vec<String> = env::args().skip(1).collect();
    let good = match &arguments[..] {
        [only] if only == INTERPRETED => {
            decks(DECKS, 0).iter().map(Call::interpreted).for_each(drop);
            Ok(true)
        }
        [driver, with_memory, emulator @ ..] => {
            let emulated = |program: &String| [emulator, std::slice::from_ref(program)].concat();
            let commands = [driver, with_memory].map(emulated);
            bench(&commands[0]).and_then(|good| Ok(memory::bench(&commands)? && good))
        }
        _ => Err(other("usage: bench DRIVER MEMORY_DRIVER [EMULATOR...]")),
    };
    match good {
        Ok(good) if good || !NATIVE => ExitCode::SUCCESS,
        Ok(_) => ExitCode::FAILURE,
        Err(error) => {
            eprintln!("bench: {error}");
            ExitCode::FAILURE
        }
    }
}

fn other(why: &str) -> io::Error {
    io::Error::new(io::ErrorKind::Other, why)
}

/// Whether all ratios are as they have to be.
fn bench(command: &[String]) -> io::Result<bool> {
    println!("                                attempts  engine  interpreter  ratio  at most");
    let lines = [
        ("without rows, ns", DECKS, 0, 1.0),
        ("without rows, other seeds, ns", OTHERS, 0, 1.0),
        ("1 row, ns", DECKS, 1, 1.1),
        ("16 rows, ns", DECKS, 16, 1.1),
        ("128 rows, ns", DECKS, 128, 1.5),
    ];
    let mut good = true;
    for (name, seeds, rows, most) in lines {
        let calls = decks(seeds, rows);
        let attempts = attempts(&calls);
        let each = timed(command, &calls, 1)?.map(|time| time as f64 / f64::from(attempts));
        good &= shows(name, attempts, each, most);
    }
    let times = timed(command, &[empty()], EMPTY_RUNS)?;
    let each = times.map(|time| time as f64 / EMPTY_RUNS as f64);
    good &= shows("an empty run, ns", 0, each, 2.0);
    if NATIVE {
        let calls = decks(DECKS, 0);
        let attempts = attempts(&calls);
        let each = counted(command, &calls)?.map(|count| count as f64 / f64::from(attempts));
        good &= shows("without rows, instructions", attempts, each, 1.1);
    }
    Ok(good)
}

/// The largest decks of these seeds, with their first rows only.
fn decks(seeds: Range<u64>, rows: usize) -> Vec<Call> {
    let decks = seeds.map(|seed| largest(seed, rows));
    decks
        .map(|deck| {
            let room = deck.len();
            Call::patterned(deck, room, STATE_BYTES)
        })
        .collect()
}

fn attempts(calls: &[Call]) -> u32 {
    let reports = calls.iter().map(|call| call.interpreted().report);
    reports.map(|report| report.attempts).sum()
}

/// A deck without words, rows and samples.
fn empty() -> Call {
    let state = &[0; STATE_BYTES];
    let [words, rows, samples] = [&[]; 3];
    let sections = Sections {
        words,
        rows,
        state,
        samples,
    };
    Call::patterned(sections.deck(), 0, STATE_BYTES)
}

/// Prints a line of what two of them take; whether the ratio is as it has to be.
fn shows(name: &str, attempts: u32, [one, other]: [f64; 2], most: f64) -> bool {
    let ratio = one / other;
    println!("{name:<30}{attempts:>10}{one:>8.1}{other:>13.1}{ratio:>7.2}{most:>9.1}");
    ratio <= most
}

/// The nanoseconds of engine and interpreter, each deck run so often for one time, the fastest times
/// added up.
fn timed(command: &[String], calls: &[Call], times: usize) -> io::Result<[u64; 2]> {
    let engine = Engine::new([command, &[times.to_string()]].concat());
    let mut fastest = vec![[u64::MAX; 2]; calls.len()];
    for _ in 0..TURNS {
        for (call, [by_engine, by_interpreter]) in calls.iter().zip(&mut fastest) {
            let expected = call.interpreted();
            let answers = engine.run(&vec![call.clone(); ROUNDS])?;
            if answers.len() < ROUNDS || answers.iter().any(|answer| answer.left != expected) {
                return Err(other("engine and interpreter differ"));
            }
            for answer in answers {
                *by_engine = answer.nanoseconds.min(*by_engine);
                *by_interpreter = interpreted(call, times).min(*by_interpreter);
            }
        }
    }
    let sum = |which: usize| fastest.iter().map(|times| times[which]).sum();
    Ok([sum(0), sum(1)])
}

/// The nanoseconds of so many runs by the interpreter.
fn interpreted(call: &Call, times: usize) -> u64 {
    let (mut requests, mut state) = (call.requests.clone(), call.state.clone());
    let begun = Instant::now();
    for _ in 0..times {
        interpreter::run(&call.deck, &mut requests, &mut state, call.marking);
    }
    begun.elapsed().as_nanos() as u64
}

/// The instructions of engine and interpreter in whole runs, which are these.
fn counted(command: &[String], calls: &[Call]) -> io::Result<[u64; 2]> {
    let by_engine = counts("run", |counter| {
        let answers = Engine::new([counter, command].concat()).run(calls)?;
        Ok(answers.len() == calls.len())
    })?;
    let by_interpreter = counts("interpreter::deck::run*", |counter| {
        let mut again = Command::new(&counter[0]);
        again.args(&counter[1..]).arg(env::current_exe()?);
        Ok(again.arg(INTERPRETED).status()?.success())
    })?;
    Ok([by_engine, by_interpreter])
}

/// The instructions of a function and what it calls. What runs the program behind the counter says
/// whether it ended well.
fn counts(function: &str, run: impl Fn(&[String]) -> io::Result<bool>) -> io::Result<u64> {
    let counter = [
        "valgrind",
        "-q",
        "--tool=callgrind",
        &format!("--callgrind-out-file={COUNTED}"),
        &format!("--toggle-collect={function}"),
    ];
    // One of an earlier time would be taken for this.
    fs::write(COUNTED, "")?;
    let ended = run(&counter.map(String::from))?;
    let text = fs::read_to_string(COUNTED)?;
    let total = text.lines().find_map(|line| line.strip_prefix("totals: "));
    let total = total.and_then(|count| count.trim().parse().ok());
    total
        .filter(|&count| ended && count > 0)
        .ok_or_else(|| other("nothing was counted"))
}
