//! Inputs for comparison, the same for the same seed.
//!
//! [`case`] makes whole decks with the lengths of the host's two buffers, [`single`] makes one
//! attempt at a time.

mod damage;
mod draft;
mod parts;
mod random;
mod single;

pub use random::Random;
pub use single::{single, Single};

use crate::{Marking, STATE_BYTES};
use draft::Draft;

/// One input of [`run`](crate::run).
#[derive(Clone, Debug)]
pub struct Case {
    /// The deck's bytes.
    pub deck: Vec<u8>,
    /// The length of the request buffer in bytes.
    pub requests: usize,
    /// The length of the state buffer in bytes.
    pub state: usize,
    /// The number of the marking.
    pub marking: u32,
}

/// What a deck is made to show.
#[derive(Clone, Copy, Debug, PartialEq, Eq)]
pub enum Kind {
    /// Valid: a few words, rows and samples.
    Short,
    /// Valid: up to 2,048 words, 128 rows and several thousand samples; runs long.
    Long,
    /// Valid: 2,048 words, 128 rows and as many samples as fit; runs long.
    Largest,
    /// Valid: no words, no rows or no samples.
    Bare,
    /// Valid: a request buffer of any length that is enough, odd ones too.
    Roomy,
    /// In range, some words illegal: refusals 6 and 8 at a fetch.
    Illegal,
    /// In range, jumps and rows lead anywhere: refusal 5 at a fetch.
    Astray,
    /// In range, every word 22 random bits: refusals 5, 6 and 8 early.
    Noise,
    /// Valid: reads and inputs, and TR where Q1 turns.
    Inputs,

    /// State: G above 7.
    StateG,
    /// State: LC above 2047.
    StateLc,
    /// State: RR above 2047.
    StateRr,
    /// State: TSR above 7.
    StateTsr,
    /// State: marks above 15.
    StateMarks,
    /// State: the I4-I6 byte above 7.
    StateInternal,
    /// State: modification bits without the mark.
    StateModification,
    /// State: the outputs above 15.
    StateOutputs,

    /// Words: one of 2^22 or more.
    WordRange,
    /// Words: more than 2,048, really there.
    WordsMany,

    /// Rows: an LC mask above 2047.
    RowLcMask,
    /// Rows: an RNI mask above 1.
    RowRniMask,
    /// Rows: a TSR mask above 3.
    RowTsrMask,
    /// Rows: an interrupt mask above 127.
    RowInterruptMask,
    /// Rows: an LC value with a bit outside its mask.
    RowLcValue,
    /// Rows: an RNI value with a bit outside its mask.
    RowRniValue,
    /// Rows: a TR value with a bit outside its mask.
    RowTrValue,
    /// Rows: a TSR value with a bit outside its mask.
    RowTsrValue,
    /// Rows: an interrupt value with a bit outside its mask.
    RowInterruptValue,
    /// Rows: an address above 2047.
    RowAddress,
    /// Rows: lines above 7.
    RowLines,
    /// Rows: a new TSR above 7.
    RowNewTsr,
    /// Rows: more than 128, really there.
    RowsMany,

    /// Samples: lines above 31.
    SampleLines,
    /// Samples: interrupts above 15.
    SampleInterrupts,
    /// A request buffer with fewer places than samples, by a byte or by more.
    RequestsShort,

    /// A deck of more than 65,536 bytes, well formed but for that.
    DeckLong,
    /// A deck cut anywhere, down to no byte at all.
    Truncated,
    /// A deck with bytes after its end.
    Extended,
    /// A count of words that the bytes do not bear out, by one or hugely.
    WordCount,
    /// A count of rows that the bytes do not bear out.
    RowCount,
    /// A state count other than 1, with or without the bytes for it.
    StateCount,
    /// A state of 41 bytes, without the outputs, as decks had it before them.
    StateOld,
    /// A count of samples that the bytes do not bear out.
    SampleCount,
    /// A state buffer of another length than a state.
    StateBuffer,

    /// An unknown marking.
    Marking,

    /// Several damages at once, which shows the order of refusals.
    Several,
}

impl Kind {
    /// Every kind.
    pub const ALL: [Kind; 46] = [
        Kind::Short,
        Kind::Long,
        Kind::Largest,
        Kind::Bare,
        Kind::Roomy,
        Kind::Illegal,
        Kind::Astray,
        Kind::Noise,
        Kind::Inputs,
        Kind::StateG,
        Kind::StateLc,
        Kind::StateRr,
        Kind::StateTsr,
        Kind::StateMarks,
        Kind::StateInternal,
        Kind::StateModification,
        Kind::StateOutputs,
        Kind::WordRange,
        Kind::WordsMany,
        Kind::RowLcMask,
        Kind::RowRniMask,
        Kind::RowTsrMask,
        Kind::RowInterruptMask,
        Kind::RowLcValue,
        Kind::RowRniValue,
        Kind::RowTrValue,
        Kind::RowTsrValue,
        Kind::RowInterruptValue,
        Kind::RowAddress,
        Kind::RowLines,
        Kind::RowNewTsr,
        Kind::RowsMany,
        Kind::SampleLines,
        Kind::SampleInterrupts,
        Kind::RequestsShort,
        Kind::DeckLong,
        Kind::Truncated,
        Kind::Extended,
        Kind::WordCount,
        Kind::RowCount,
        Kind::StateCount,
        Kind::StateOld,
        Kind::SampleCount,
        Kind::StateBuffer,
        Kind::Marking,
        Kind::Several,
    ];
}

/// The case of this kind and seed.
pub fn case(kind: Kind, seed: u64) -> Case {
    let random = &mut Random::new(seed ^ (kind as u64) << 56);
    let mut draft = draft(kind, random);
    let damages: &[Kind] = &damages(kind, random);
    for &damage in damages {
        damage::fields(damage, &mut draft, random);
    }
    let mut case = Case {
        deck: draft.bytes(),
        requests: 4 * draft.samples.len(),
        state: STATE_BYTES,
        marking: marking(random).number(),
    };
    for &damage in damages {
        damage::lengths(damage, &draft, &mut case, random);
    }
    case
}

/// Either marking.
fn marking(random: &mut Random) -> Marking {
    random.pick(&[Marking::Cp1661b, Marking::Cp1621b])
}

/// A deck in range, as the kind needs it.
fn draft(kind: Kind, random: &mut Random) -> Draft {
    match kind {
        Kind::Long => {
            let words = random.pick(&[64, 200, 256, 511, 1024, 2047, 2048, 2048]);
            let rows = random.below(129) as usize;
            let samples = 1000 + random.below(5000) as usize;
            Draft::lasting(random, words, rows, samples)
        }
        Kind::Largest => Draft::lasting(random, 2048, 128, 13_811),
        Kind::Bare => draft::bare(random),
        Kind::Illegal => draft::illegal(random),
        Kind::Astray => draft::astray(random),
        Kind::Noise => draft::noise(random),
        Kind::Inputs => draft::inputs(random),
        _ => draft::short(random),
    }
}

/// The damages that a kind stands for.
fn damages(kind: Kind, random: &mut Random) -> Vec<Kind> {
    if kind != Kind::Several {
        return vec![kind];
    }
    // The first kind of each refusal: 1, 2, 3, 4, 9, 24, and the end.
    let firsts = [
        Kind::StateG,
        Kind::WordRange,
        Kind::RowLcMask,
        Kind::SampleLines,
        Kind::DeckLong,
        Kind::Marking,
        Kind::Several,
    ];
    let damage = |_| {
        // 9 and 24 hide all others, so they are drawn seldom.
        let refusal = random.pick(&[0, 1, 1, 2, 2, 3, 3, 3, 3, 4, 5]);
        let [first, end] = [firsts[refusal] as usize, firsts[refusal + 1] as usize];
        random.pick(&Kind::ALL[first..end])
    };
    (0..3).map(damage).collect()
}
