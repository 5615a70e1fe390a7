//! What a vector starts from: the four sections of its deck, and the marking.

use crate::row::Row;
use compare::call::{Call, Left};
use compare::deck::{words_to, Sections};
use interpreter::{Marking, State, STATE_BYTES};

/// Bit 16 of a word.
pub const LOAD_RR: u32 = 1 << 16;
/// Bit 17.
pub const RNI: u32 = 1 << 17;
/// Bits 18-21.
pub const OUTPUTS: u32 = 15 << 18;

/// Bits 18-21 of a word that loads these outputs.
pub fn loading(outputs: u8) -> u32 {
    u32::from(outputs) << 18
}

/// The outputs that a word loads.
pub fn loaded(word: u32) -> u8 {
    ((word & OUTPUTS) >> 18) as u8
}

/// A sample.
#[derive(Clone, Copy)]
pub struct Sample {
    /// DAL.
    pub data: u16,
    /// The lines.
    pub lines: u8,
    /// I0-I3.
    pub interrupts: u8,
}

impl Sample {
    /// The sample's four bytes.
    pub fn bytes(&self) -> [u8; 4] {
        let [low, high] = self.data.to_le_bytes();
        [low, high, self.lines, self.interrupts]
    }

    /// The sample with these lines low and those high.
    pub fn with(self, low: u8, high: u8) -> Self {
        let lines = self.lines & !low | high;
        Self { lines, ..self }
    }
}

/// The sections of a deck, and the marking of its run.
#[derive(Clone)]
pub struct Setting {
    /// Words.
    pub words: Vec<u32>,
    /// Rows.
    pub rows: Vec<Row>,
    /// The state.
    pub state: State,
    /// Samples.
    pub samples: Vec<Sample>,
    /// The marking.
    pub marking: Marking,
}

impl Setting {
    /// One word at the state's LC, and one sample, under CP1661B. The word loads other outputs than there are, each
    /// of the four, which tells a board that keeps them from one that loads them.
    pub fn single(word: u32, state: State, sample: Sample) -> Self {
        let word = word | loading(!state.outputs & 15);
        Self {
            words: words_to(state.lc, word),
            rows: Vec::new(),
            state,
            samples: vec![sample],
            marking: Marking::Cp1661b,
        }
    }

    /// The setting with its word at another address.
    pub fn at(mut self, lc: u16) -> Self {
        self.words = words_to(lc, self.stored());
        self.state.lc = lc;
        self
    }

    /// The setting with these bits too in its word.
    pub fn with_bits(mut self, bits: u32) -> Self {
        let at = usize::from(self.state.lc);
        self.words[at] |= bits;
        self
    }

    /// The setting with this row.
    pub fn with_row(mut self, row: Row) -> Self {
        self.rows.push(row);
        self
    }

    /// The setting with this sample before its own.
    pub fn after(mut self, sample: Sample) -> Self {
        self.samples.insert(0, sample);
        self
    }

    /// The word that the first attempt finds.
    pub fn stored(&self) -> u32 {
        self.words[usize::from(self.state.lc)]
    }

    /// The word that the first attempt takes, its modification ORed in.
    pub fn word(&self) -> u32 {
        self.stored() | u32::from(self.state.modification.unwrap_or(0))
    }

    /// The call of `run`, with one place more than there are samples, which stays untouched.
    pub fn call(&self) -> Call {
        let words: Vec<u8> = self.words.iter().flat_map(|w| w.to_le_bytes()).collect();
        let rows: Vec<u8> = self.rows.iter().flat_map(Row::bytes).collect();
        let samples: Vec<u8> = self.samples.iter().flat_map(Sample::bytes).collect();
        let sections = Sections {
            words: &words,
            rows: &rows,
            state: &self.state.to_bytes(),
            samples: &samples,
        };
        let call = Call::patterned(sections.deck(), samples.len() + 4, STATE_BYTES);
        call.marked(self.marking.number())
    }

    /// What the interpreter leaves behind.
    pub fn interpreted(&self) -> Left {
        self.call().interpreted()
    }
}
