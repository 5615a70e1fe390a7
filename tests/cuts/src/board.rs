//! A deck on the interpreter's board, attempt by attempt.

use compare::deck::Sections;
use interpreter::{attempt, Marking, Outcome, Row, Sample, State};

/// Words, rows and marking, and the state as it is.
pub struct Board {
    words: Vec<u32>,
    rows: Vec<Row>,
    marking: Marking,
    /// The state.
    pub state: State,
}

impl Board {
    /// The board of a deck whose words, rows and state are in range.
    pub fn of(deck: &Sections<'_>, marking: u32) -> Option<Self> {
        let words = deck.words.chunks_exact(4).map(|word| word.try_into());
        let rows = deck.rows.chunks_exact(16).map(|row| row.try_into().ok());
        let rows: Option<Vec<Row>> = rows.map(|row| Row::from_bytes(row?)).collect();
        Some(Self {
            words: words.flatten().map(u32::from_le_bytes).collect(),
            rows: rows?,
            marking: Marking::from_number(marking)?,
            state: State::from_bytes(deck.state.try_into().ok()?)?,
        })
    }

    /// The word at LC.
    pub fn word(&self) -> Option<u32> {
        self.words.get(usize::from(self.state.lc)).copied()
    }

    /// One attempt with a sample in range.
    pub fn attempt(&mut self, sample: &[u8]) -> Option<Outcome> {
        let sample = Sample::from_bytes(sample.try_into().ok()?)?;
        let state = &mut self.state;
        Some(attempt(
            &self.words,
            &self.rows,
            state,
            sample,
            self.marking,
        ))
    }
}
