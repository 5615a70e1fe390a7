//! One attempt at a time.

use super::draft::Draft;
use super::{marking, parts, Random};
use crate::{Marking, STATE_BYTES};

/// One attempt in range, each part as a deck holds it.
#[derive(Clone, Debug)]
pub struct Single {
    /// Words; the one at LC, when it is there, is the one that the attempt is about.
    pub words: Vec<u32>,
    /// Rows, some made to match.
    pub rows: Vec<[u8; 16]>,
    /// The state.
    pub state: [u8; STATE_BYTES],
    /// The sample.
    pub sample: [u8; 4],
    /// The marking.
    pub marking: Marking,
}

impl Single {
    /// The deck with this one attempt.
    pub fn deck(&self) -> Vec<u8> {
        let draft = Draft {
            words: self.words.clone(),
            rows: self.rows.clone(),
            state: self.state,
            samples: vec![self.sample],
        };
        draft.bytes()
    }
}

/// The attempt of this seed; its word has the seed's low byte for its top byte.
pub fn single(seed: u64) -> Single {
    let random = &mut Random::new(seed);
    let mut state = parts::state(random, 2048);
    let lc = match random.below(4) {
        0 => random.pick(&[0, 1, 0xFE, 0xFF, 0x100, 0x1FF, 0x7FE, 0x7FF]),
        1 => random.below(2048) as u16,
        _ => random.below(8) as u16,
    };
    state[28..30].copy_from_slice(&lc.to_le_bytes());
    if random.one_in(8) {
        parts::modify(random, &mut state);
    }
    let drawn = (seed as u32 & 0xFF) << 8 | random.below(256);
    if matches!(drawn >> 8, 0xE0..=0xE3) {
        state[32..34].copy_from_slice(&parts::telling_tr(random).to_le_bytes());
    }
    let drawn = if random.one_in(8) {
        drawn
    } else {
        parts::legal(drawn)
    };
    let word = parts::upper_bits(random) | drawn;
    let mut sample = parts::sample(random, 64);
    if random.one_in(32) {
        sample[2] ^= 1 << random.below(5);
    }
    let rows = random.below(6) * random.below(2);
    let rows = (0..rows)
        .map(|_| row(random, word, &state, sample))
        .collect();
    let mut words = vec![0; usize::from(lc)];
    if !random.one_in(64) {
        words.push(word);
    }
    Single {
        words,
        rows,
        state,
        sample,
        marking: marking(random),
    }
}

/// A row, made to match this attempt more often than not.
fn row(random: &mut Random, word: u32, state: &[u8; STATE_BYTES], sample: [u8; 4]) -> [u8; 16] {
    let mut row = parts::row(random, 2048);
    row[14] = random.below(8) as u8;
    let tr = if state[36] & 4 == 0 {
        state[33]
    } else {
        state[32]
    };
    let seen = [
        (0, 2, state[28]),
        (1, 3, state[29]),
        (4, 5, (word >> 17) as u8 & 1),
        (6, 7, tr),
        (8, 9, state[36]),
        (10, 11, sample[3] | state[38] << 4),
    ];
    let spoiled = random.below(10);
    for (at, &(mask, value, actual)) in (0..).zip(&seen) {
        if at != spoiled {
            row[value] = row[mask] & actual;
        }
    }
    row
}
