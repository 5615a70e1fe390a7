//! The decks and their memories.

use crate::traffic;
use compare::call::Call;
use compare::deck::Sections;
use compare::lines::{COMPUTE, RESET};
use compare::memory::WithMemory;
use interpreter::decks::{case, Kind, Random};
use interpreter::{Marking, STATE_BYTES};
use std::fmt;

/// The most bytes of a memory.
pub const MOST: usize = 65_536;

/// Waits in a row before 17.
const ROW: usize = 32;

/// Kinds whose decks take long.
const LONG: [Kind; 4] = [Kind::Long, Kind::Largest, Kind::DeckLong, Kind::WordsMany];

/// How a deck was made.
#[derive(Clone, Copy, Debug, PartialEq, Eq)]
pub enum Made {
    /// With traffic.
    Traffic,
    /// With traffic, and where 17 came with its row of waits cut short or broken.
    Broken,
    /// With traffic, and some bits turned over.
    Damaged,
    /// As the comparison without memory has it, most refused as a whole.
    Of(Kind),
}

/// A deck with a memory, by its seed.
#[derive(Clone, Copy)]
pub struct Subject {
    seed: u64,
    pub made: Made,
}

impl Subject {
    /// The one of this seed.
    pub fn new(seed: u64) -> Self {
        let random = &mut Random::new(!seed);
        let made = match random.below(24) {
            0 | 1 => Made::Damaged,
            2..=4 => {
                let kind = random.pick(&Kind::ALL);
                let long = LONG.contains(&kind) && !random.one_in(16);
                Made::Of(if long { Kind::Inputs } else { kind })
            }
            5..=9 => Made::Broken,
            _ => Made::Traffic,
        };
        Self { seed, made }
    }

    /// Its call.
    pub fn call(&self) -> WithMemory {
        let random = &mut Random::new(self.seed.rotate_left(32));
        // The addresses of other kinds are anywhere.
        let length = match self.made {
            Made::Of(_) if random.one_in(4) => MOST,
            _ => length(random),
        };
        let call = match self.made {
            Made::Of(kind) => {
                let case = case(kind, self.seed);
                Call::patterned(case.deck, case.requests, case.state).marked(case.marking)
            }
            _ => self.traffic(random, length),
        };
        let made = WithMemory {
            call,
            memory: (0..length).map(|_| random.byte()).collect(),
            delay: delay(random),
        };
        match self.made {
            Made::Broken => broken(random, made),
            _ => made,
        }
    }

    /// A deck with traffic, damaged or not; every eighth request buffer is longer than it needs to be.
    fn traffic(&self, random: &mut Random, length: usize) -> Call {
        let mut deck = traffic::deck(random, length);
        if self.made == Made::Damaged {
            for _ in 0..=random.below(3) {
                let bit = random.below(8 * deck.len() as u32) as usize;
                deck[bit / 8] ^= 1 << (bit % 8);
            }
        }
        let samples = Sections::of(&deck).map_or(0, |own| own.samples.len());
        let more = u32::from(random.one_in(8)) * random.below(40);
        let marking = random.pick(&[Marking::Cp1661b, Marking::Cp1621b]);
        let call = Call::patterned(deck, samples + more as usize, STATE_BYTES);
        call.marked(marking.number())
    }
}

impl fmt::Display for Subject {
    fn fmt(&self, f: &mut fmt::Formatter<'_>) -> fmt::Result {
        write!(f, "deck {:?}, seed {}", self.made, self.seed)
    }
}

/// A length: none, small ones, the largest ones, odd and too long ones.
fn length(random: &mut Random) -> usize {
    match random.below(48) {
        0 => 0,
        1..=5 => 2,
        6 | 7 => random.pick(&[MOST, MOST, MOST - 2]),
        8 => 2 * random.below(64) as usize + 1,
        9 if random.one_in(2) => random.pick(&[MOST - 1, MOST + 1, MOST + 2, 2 * MOST]),
        10 | 11 => 256,
        _ => 4 + 2 * random.below(31) as usize,
    }
}

/// A delay of 0 to 15, often a short one, seldom one over.
fn delay(random: &mut Random) -> u32 {
    match random.below(64) {
        0 => random.pick(&[16, 17, 31, 256, 1 << 16, 1 << 31, u32::MAX]),
        1..=39 => random.below(4),
        _ => random.below(16),
    }
}

/// A row of waits that would be refused ends a sample before or is broken, mostly at its end.
fn broken(random: &mut Random, made: WithMemory) -> WithMemory {
    let left = made.interpreted().left;
    let refused = left.report.attempts as usize;
    let sections = match Sections::of(&made.call.deck) {
        Some(sections) if left.report.answer == 17 => sections,
        _ => return made,
    };
    let mut samples = sections.samples.to_vec();
    let before = random.pick(&[0, 0, 0, 1, 2]) * random.below(ROW as u32 / 2) as usize;
    let lines = &mut samples[4 * (refused - before) + 2];
    match random.below(4) {
        0 => samples.truncate(4 * refused),
        1 => *lines |= RESET,
        _ => *lines &= !(COMPUTE | RESET),
    }
    let samples = &samples;
    let deck = Sections {
        samples,
        ..sections
    }
    .deck();
    let call = Call { deck, ..made.call };
    WithMemory { call, ..made }
}
