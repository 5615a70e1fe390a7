//! The decks, and where they are cut.

use crate::board::Board;
use crate::cutter::Cuts;
use compare::call::{Call, Left};
use compare::deck::Sections;
use interpreter::decks::{case, Kind, Random};
use interpreter::Outcome;
use std::fmt;

/// The kinds that are in range, but for those that take long.
const IN_RANGE: [Kind; 7] = [
    Kind::Short,
    Kind::Bare,
    Kind::Roomy,
    Kind::Illegal,
    Kind::Astray,
    Kind::Noise,
    Kind::Inputs,
];

/// So many samples may be cut at every place.
const FEW: usize = 24;

/// A deck by its seed.
#[derive(Clone, Copy)]
pub struct Subject {
    kind: Kind,
    /// Bits of the deck that are turned over, and may leave it in range.
    pub damage: u32,
    seed: u64,
}

impl Subject {
    /// The deck of this seed: mostly one in range, some of them damaged, and a few of every other kind.
    pub fn new(seed: u64) -> Self {
        let random = &mut Random::new(!seed);
        let (kind, damage) = match random.below(2000) {
            0 => (Kind::Largest, 0),
            1..=6 => (Kind::Long, 0),
            7..=99 => (random.pick(&Kind::ALL), 0),
            100..=599 => (random.pick(&IN_RANGE), 1 + random.below(3)),
            _ => (random.pick(&IN_RANGE), 0),
        };
        Self { kind, damage, seed }
    }

    /// The call of one run; every other request buffer is longer than it was made.
    pub fn call(&self) -> Call {
        let (mut case, random) = (case(self.kind, self.seed), &mut self.random(0));
        for _ in 0..self.damage {
            let bits = 8 * case.deck.len() as u32;
            let bit = random.below(bits.max(1)) as usize;
            if let Some(byte) = case.deck.get_mut(bit / 8) {
                *byte ^= 1 << (bit % 8);
            }
        }
        let more = random.below(2) * random.below(40);
        Call::patterned(case.deck, case.requests + more as usize, case.state).marked(case.marking)
    }

    /// Where the deck of a call is cut that leaves this behind in one run.
    pub fn cuts(&self, call: &Call, left: &Left) -> Option<Cuts> {
        let random = &mut self.random(1);
        let samples = Sections::of(&call.deck)?.samples.len() / 4;
        let telling = telling(call, left)?;
        let mut places: Vec<usize> = match random.below(16) {
            0 if samples <= FEW => (0..=samples).collect(),
            _ => {
                let count = random.pick(&[1, 1, 1, 2, 2, 3, 6]);
                let place = |_| place(random, samples, &telling);
                (0..count).map(place).collect()
            }
        };
        if let (Some(&again), true) = (places.first(), random.one_in(8)) {
            places.push(again);
        }
        places.sort_unstable();
        let narrow = random.one_in(4);
        Some(Cuts { places, narrow })
    }

    /// What the call draws from, 0, or its cuts, 1.
    fn random(&self, which: u64) -> Random {
        Random::new(self.seed.rotate_left(32) ^ which << 31)
    }
}

impl fmt::Display for Subject {
    fn fmt(&self, f: &mut fmt::Formatter<'_>) -> fmt::Result {
        let (kind, damage) = (self.kind, self.damage);
        write!(
            f,
            "deck of kind {kind:?}, {damage} bits damaged, seed {}",
            self.seed
        )
    }
}

/// Any place, often an end or one that tells more than others.
fn place(random: &mut Random, samples: usize, telling: &[usize]) -> usize {
    match random.below(8) {
        0 => 0,
        1 => samples,
        2 | 3 if !telling.is_empty() => random.pick(telling),
        _ => random.below(samples as u32 + 1) as usize,
    }
}

/// The places at which a modification waits, and before and behind a refused attempt.
fn telling(call: &Call, left: &Left) -> Option<Vec<usize>> {
    let sections = Sections::of(&call.deck)?;
    let mut board = Board::of(&sections, call.marking)?;
    let mut places = Vec::new();
    for (place, sample) in sections.samples.chunks_exact(4).enumerate() {
        if board.state.modification.is_some() {
            places.push(place);
        }
        if let Outcome::Refused(_) = board.attempt(sample)? {
            break;
        }
    }
    if left.report.answer != 0 {
        let refused = left.report.attempts as usize;
        places.extend([refused, refused + 1]);
    }
    Some(places)
}
