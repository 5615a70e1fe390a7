//! A deck before it becomes bytes.

use super::{parts, Random};
use crate::STATE_BYTES;

/// The four sections.
pub(super) struct Draft {
    pub(super) words: Vec<u32>,
    pub(super) rows: Vec<[u8; 16]>,
    pub(super) state: [u8; STATE_BYTES],
    pub(super) samples: Vec<[u8; 4]>,
}

impl Draft {
    /// A deck in range that runs long.
    pub(super) fn lasting(random: &mut Random, words: usize, rows: usize, samples: usize) -> Self {
        // A few resets in a deck of any length.
        let reset = 16 + samples as u32 / 2;
        Self {
            words: parts::program(random, words),
            rows: (0..rows).map(|_| parts::row(random, words)).collect(),
            state: parts::state(random, words),
            samples: (0..samples).map(|_| parts::sample(random, reset)).collect(),
        }
    }

    /// The deck.
    pub(super) fn bytes(&self) -> Vec<u8> {
        let mut bytes = count(self.words.len());
        bytes.extend(self.words.iter().flat_map(|word| word.to_le_bytes()));
        bytes.extend(count(self.rows.len()));
        bytes.extend(self.rows.iter().flatten());
        bytes.extend(count(1));
        bytes.extend(self.state);
        bytes.extend(count(self.samples.len()));
        bytes.extend(self.samples.iter().flatten());
        bytes
    }

    /// Where the counts of words, rows, state and samples lie.
    pub(super) fn counts(&self) -> [usize; 4] {
        let rows = 2 + 4 * self.words.len();
        let state = rows + 2 + 16 * self.rows.len();
        [0, rows, state, state + 2 + STATE_BYTES]
    }
}

fn count(items: usize) -> Vec<u8> {
    (items as u16).to_le_bytes().to_vec()
}

/// A few of everything, at least one word, row and sample, so that each can be damaged.
pub(super) fn short(random: &mut Random) -> Draft {
    let words = 1 + random.below(24) as usize;
    let rows = 1 + random.below(6) as usize;
    let samples = 1 + random.below(40) as usize;
    let mut draft = Draft::lasting(random, words, rows, samples);
    if random.one_in(4) {
        parts::modify(random, &mut draft.state);
    }
    draft
}

/// Some sections without items.
pub(super) fn bare(random: &mut Random) -> Draft {
    let mut draft = short(random);
    let without = 1 + random.below(7);
    if without & 1 != 0 {
        draft.words.clear();
    }
    if without & 2 != 0 {
        draft.rows.clear();
    }
    if without & 4 != 0 {
        draft.samples.clear();
    }
    draft
}

/// A program with some words that are refused when they are fetched.
pub(super) fn illegal(random: &mut Random) -> Draft {
    let mut draft = Draft::lasting(random, 256, 16, 300);
    for word in draft.words.iter_mut().filter(|word| **word & 0xF000 != 0) {
        if random.one_in(24) {
            let code = if random.one_in(3) {
                random.pick(&[
                    0x7800, 0x7F00, 0xAC00, 0xAD00, 0xD400, 0xD700, 0xE800, 0xEB00,
                ])
            } else {
                0xE000 + (random.below(6) << 8)
            };
            *word = parts::upper_bits(random) | code | random.below(256);
        }
    }
    if random.one_in(2) {
        parts::modify(random, &mut draft.state);
    }
    draft
}

/// A program whose jumps, rows, LC and RR need not lie among its words.
pub(super) fn astray(random: &mut Random) -> Draft {
    let words = 1 + random.below(400) as usize;
    let mut draft = Draft::lasting(random, words, 16, 300);
    let beyond = (2 * words).min(2048);
    for (own, word) in draft.words.iter_mut().enumerate() {
        if random.one_in(8) {
            *word = parts::legal_word(random, own, beyond);
        }
    }
    for row in &mut draft.rows {
        if random.one_in(4) {
            *row = parts::row(random, beyond);
        }
    }
    if random.one_in(4) {
        draft.state = parts::state(random, beyond);
    }
    draft
}

/// Words of any 22 bits.
pub(super) fn noise(random: &mut Random) -> Draft {
    let words = 1 + random.below(2048) as usize;
    let mut draft = Draft::lasting(random, words, 32, 100);
    for word in &mut draft.words {
        *word = random.below(1 << 22);
    }
    if random.one_in(2) {
        parts::modify(random, &mut draft.state);
    }
    draft
}

/// Reads that take the bus, and inputs of all options; TR and what loads it are where Q1 turns.
pub(super) fn inputs(random: &mut Random) -> Draft {
    let mut draft = Draft::lasting(random, 64, 4, 300);
    for word in draft.words.iter_mut().filter(|word| **word & 0xF000 != 0) {
        let code = match random.below(4) {
            0 => random.pick(&[0xF800, 0xFA00]),
            1 => continue,
            _ => 0xE000 + (random.below(4) << 8),
        };
        *word = parts::upper_bits(random) | parts::legal(code | random.below(256));
    }
    draft.state[32..34].copy_from_slice(&parts::telling_tr(random).to_le_bytes());
    for sample in &mut draft.samples {
        sample[..2].copy_from_slice(&parts::telling_tr(random).to_le_bytes());
    }
    draft
}
