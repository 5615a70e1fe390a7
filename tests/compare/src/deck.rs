//! A deck taken apart, as far as its counts go; nothing is tested for its range.

use interpreter::decks::{case, Kind};
use interpreter::{section, STATE_BYTES};

/// An unlisted word, wherever a vector's own words do not lie: it must not be executed.
pub const ELSEWHERE: u32 = 0x7800;

/// The words of a deck whose own word lies at this address, the last.
pub fn words_to(lc: u16, word: u32) -> Vec<u32> {
    let mut words = vec![ELSEWHERE; usize::from(lc)];
    words.push(word);
    words
}

/// One of the largest decks, with its first rows only, of 128. Same seed, same deck.
pub fn largest(seed: u64, rows: usize) -> Vec<u8> {
    let deck = case(Kind::Largest, seed).deck;
    match Sections::of(&deck) {
        Some(sections) => {
            let rows = &sections.rows[..16 * rows];
            Sections { rows, ..sections }.deck()
        }
        None => deck,
    }
}

/// The bytes of the four sections, their counts left away.
#[derive(Clone, Copy)]
pub struct Sections<'a> {
    /// Words, 4 bytes each.
    pub words: &'a [u8],
    /// Rows, 16 bytes each.
    pub rows: &'a [u8],
    /// The state.
    pub state: &'a [u8],
    /// Samples, 4 bytes each.
    pub samples: &'a [u8],
}

impl<'a> Sections<'a> {
    /// The sections of a deck whose counts its bytes bear out.
    pub fn of(deck: &'a [u8]) -> Option<Self> {
        let (words, rest) = section(deck, 4)?;
        let (rows, rest) = section(rest, 16)?;
        let (state, rest) = section(rest, STATE_BYTES)?;
        let (samples, _) = section(rest, 4)?;
        Some(Self {
            words,
            rows,
            state,
            samples,
        })
    }

    /// The deck of these sections.
    pub fn deck(&self) -> Vec<u8> {
        let sections = [
            (self.words, 4),
            (self.rows, 16),
            (self.state, STATE_BYTES),
            (self.samples, 4),
        ];
        let mut deck = Vec::new();
        for (bytes, size) in sections {
            deck.extend(((bytes.len() / size) as u16).to_le_bytes());
            deck.extend(bytes);
        }
        deck
    }

    /// The word at an address.
    pub fn word(&self, address: u16) -> Option<u32> {
        let at = 4 * usize::from(address);
        let bytes = self.words.get(at..at + 4)?;
        Some(u32::from_le_bytes(bytes.try_into().ok()?))
    }
}
