//! Runs with a memory against the same attempts without one, and in a short memory against a long.

use super::{other, shows, DECKS, ROUNDS, TURNS};
use compare::call::Call;
use compare::deck::{largest, Sections};
use compare::driver::Driver;
use compare::engine::Engine;
use compare::memory::WithMemory;
use interpreter::{RULES, STATE_BYTES};
use std::io;

/// The most bytes of a memory.
const MOST: usize = 65_536;
/// Attempts that see REPLY low.
const DELAY: u32 = 1;
const NOP: u32 = 0xFF00;
/// Of a row's lines and of a state's marks.
const LTSR: u8 = 4;
const SYNC: u8 = 2;
/// R, W, RIW2 and WA; IB, IW, OB and OW.
const ACCESSES: [u32; 4] = [0xF800, 0xF900, 0xF600, 0xFB00];
const TRANSFERS: [u32; 4] = [0xE000, 0xE200, 0xFC20, 0xFD20];

/// R, IW, AW, W, OW and a jump back, at address 0.
const LOOP: [u32; 6] = [0xF832, 0xE206, 0xA286, 0xF932, 0xFD76, 0x0000];
/// Few, so that a cost by the length of the memory shows.
const LOOP_SAMPLES: usize = 1000;

/// A run with a memory and what it is held against: both leave the same behind.
struct Pair<T> {
    with: WithMemory,
    against: T,
}

/// Whether all ratios are as they have to be.
pub fn bench([without, with]: &[Vec<String>; 2]) -> io::Result<bool> {
    let (without, with) = (Engine::new(without.clone()), Driver::new(with.clone()));
    println!("                                attempts    with      without  ratio  at most");
    let mut good = true;
    for (name, rows) in [("a memory, no rows, ns", 0), ("a memory, 16 rows, ns", 16)] {
        let pairs: Vec<Pair<Call>> = DECKS.map(|seed| pair(seed, rows)).collect();
        let attempts = attempts(&pairs);
        let times = timed(&with, &pairs, |call| {
            let answers = without.run(&vec![call.clone(); ROUNDS])?.into_iter();
            Ok(answers
                .map(|answer| (answer.left, answer.nanoseconds))
                .collect())
        })?;
        good &= shows(name, attempts, each(times, attempts), 1.3);
    }
    println!("                                attempts  65,536      2 bytes  ratio  at most");
    let pairs = [Pair {
        with: traffic(MOST),
        against: traffic(2),
    }];
    let attempts = attempts(&pairs);
    let times = timed(&with, &pairs, |call| {
        let answers = with.run(&vec![call.clone(); ROUNDS])?.into_iter();
        Ok(answers
            .map(|answer| (answer.left.left, answer.nanoseconds))
            .collect())
    })?;
    good &= shows(
        "a loop of accesses, ns",
        attempts,
        each(times, attempts),
        1.1,
    );
    Ok(good)
}

fn each(times: [u64; 2], attempts: u32) -> [f64; 2] {
    times.map(|time| time as f64 / f64::from(attempts))
}

fn attempts<T>(pairs: &[Pair<T>]) -> u32 {
    let reports = pairs.iter().map(|pair| pair.with.interpreted().left.report);
    reports.map(|report| report.attempts).sum()
}

/// The nanoseconds of both sides, the fastest times added up.
fn timed<T>(
    with: &Driver,
    pairs: &[Pair<T>],
    against: impl Fn(&T) -> io::Result<Vec<(compare::call::Left, u64)>>,
) -> io::Result<[u64; 2]> {
    let mut fastest = vec![[u64::MAX; 2]; pairs.len()];
    for _ in 0..TURNS {
        for (pair, [by_one, by_other]) in pairs.iter().zip(&mut fastest) {
            let expected = pair.with.interpreted().left;
            let answers = with.run(&vec![pair.with.clone(); ROUNDS])?.into_iter();
            let one = answers.map(|answer| (answer.left.left, answer.nanoseconds));
            for (times, fastest) in [(one.collect(), by_one), (against(&pair.against)?, by_other)] {
                let times: Vec<_> = times;
                if times.len() < ROUNDS || times.iter().any(|(left, _)| *left != expected) {
                    return Err(other("engine and interpreter differ"));
                }
                let least = times.iter().map(|&(_, time)| time).min();
                *fastest = least.unwrap_or(u64::MAX).min(*fastest);
            }
        }
    }
    let sum = |which: usize| fastest.iter().map(|times| times[which]).sum();
    Ok([sum(0), sum(1)])
}

/// One of the largest decks with a memory, and against it the same attempts without one.
fn pair(seed: u64, rows: usize) -> Pair<Call> {
    let with = in_memory(flowing(&largest(seed, rows)), MOST);
    let mut lines = Vec::new();
    with.watched(&RULES, |attempt| lines.push(attempt.lines));
    let against = with.without(lines.into_iter());
    Pair { with, against }
}

/// The deck in which no word waits for ever: all words are attempted in turn from the start, and
/// accesses and transfers alternate. No row leads away.
fn flowing(deck: &[u8]) -> Vec<u8> {
    let own = Sections::of(deck).expect("a deck in range");
    let (mut rows, mut state) = (own.rows.to_vec(), own.state.to_vec());
    rows.chunks_exact_mut(16).for_each(|row| row[14] &= LTSR);
    state[28..30].fill(0);
    state[37] &= !SYNC;
    let mut accessed = false;
    let words = (0..2048).filter_map(|lc| Some((lc, own.word(lc)?)));
    let words = words.map(|(lc, word)| word & !0xFFFF | in_turn(lc, word, &mut accessed));
    let words: Vec<u8> = words.flat_map(u32::to_le_bytes).collect();
    let sections = Sections {
        words: &words,
        rows: &rows,
        state: &state,
        ..own
    };
    sections.deck()
}

/// What the word at an address becomes: a jump leads to the next word, accesses and transfers take
/// turns. RESET leads to address 1, which is behind no access.
fn in_turn(lc: u16, word: u32, accessed: &mut bool) -> u32 {
    let (next, last) = (u32::from(lc + 1) & 0x7FF, lc >= 2046);
    match (word >> 8) as u8 {
        _ if last && *accessed => {
            *accessed = false;
            TRANSFERS[0]
        }
        0x00..=0x0F => next,
        0x10..=0x1F if next & 0xFF != 0 => word & 0xFF00 | next & 0xFF,
        0x10..=0x1F => next,
        0xE0..=0xE3 | 0xF0..=0xFD if lc > 0 && !last => {
            *accessed = !*accessed;
            match *accessed {
                true => ACCESSES[(word & 3) as usize] | word & 0xFF,
                false => TRANSFERS[(word & 3) as usize] | word & 0x0F,
            }
        }
        // A modification could make any code; two addresses have no access.
        0xEC | 0xED | 0xE0..=0xE3 | 0xF0..=0xFD => NOP,
        _ => word & 0xFFFF,
    }
}

/// The loop in a memory of so many bytes.
fn traffic(length: usize) -> WithMemory {
    let words: Vec<u8> = LOOP.iter().flat_map(|word| word.to_le_bytes()).collect();
    let sections = Sections {
        words: &words,
        rows: &[],
        state: &[0; STATE_BYTES],
        samples: &[0, 0, 4, 0].repeat(LOOP_SAMPLES),
    };
    in_memory(sections.deck(), length)
}

fn in_memory(deck: Vec<u8>, length: usize) -> WithMemory {
    let room = deck.len();
    WithMemory {
        call: Call::patterned(deck, room, STATE_BYTES),
        memory: vec![0x55; length],
        delay: DELAY,
    }
}
