//! Which runs come next.

use crate::settings::Until;
use std::ops::Range;
use std::time::{Duration, Instant};

/// A batch is made so long that it takes from half of this to this: a driver lives no longer than
/// 120 seconds, and a soak ends no sooner than its batches.
const BATCH: Duration = Duration::from_secs(1);
/// Runs in a batch, however short they are.
const RUNS: u64 = 1 << 20;

/// Runs of one deck in one process of the driver, counted from 1.
pub struct Batch {
    /// The deck's place.
    pub deck: usize,
    /// Its runs.
    pub runs: Range<u64>,
}

/// How far one deck is.
struct Turn {
    next: u64,
    size: u64,
}

/// Hands batches out; the decks take turns.
pub struct Schedule {
    deadline: Option<Instant>,
    /// The last run of each deck.
    last: u64,
    turns: Vec<Turn>,
    at: usize,
}

impl Schedule {
    /// From the second run on: the first is what the others are compared with.
    pub fn new(until: Until, begun: Instant, decks: usize) -> Self {
        let (deadline, last) = match until {
            Until::Over(time) => (Some(begun + time), u64::MAX),
            Until::Runs(runs) => (None, runs),
        };
        let turns = (0..decks).map(|_| Turn { next: 2, size: 1 });
        Self {
            deadline,
            last,
            turns: turns.collect(),
            at: 0,
        }
    }

    /// Whether the time is over.
    pub fn over(&self) -> bool {
        self.deadline
            .map_or(false, |deadline| Instant::now() >= deadline)
    }

    /// Whether time or runs are used up.
    pub fn ended(&self) -> bool {
        self.over() || self.turns.iter().all(|turn| turn.next > self.last)
    }

    /// The next batch, until time or runs are used up.
    pub fn next(&mut self) -> Option<Batch> {
        let count = self.turns.len();
        let mut decks = (0..count).map(|step| (self.at + step) % count);
        let deck = decks.find(|&deck| self.turns[deck].next <= self.last)?;
        if self.over() {
            return None;
        }
        let turn = &mut self.turns[deck];
        let from = turn.next;
        turn.next += turn.size.min(self.last - from + 1);
        self.at = deck + 1;
        Some(Batch {
            deck,
            runs: from..turn.next,
        })
    }

    /// A batch of the deck took so long: how many runs the next has.
    pub fn took(&mut self, batch: &Batch, time: Duration) {
        let size = batch.runs.end - batch.runs.start;
        let turn = &mut self.turns[batch.deck];
        if time > BATCH {
            turn.size = (size / 2).max(1);
        } else if time < BATCH / 2 && size == turn.size {
            turn.size = (2 * size).min(RUNS);
        }
    }
}
