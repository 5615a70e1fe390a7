//! The bench host's entry over a deck's bytes.

use crate::attempt::{attempt, Outcome};
use crate::marking::Marking;
use crate::row::Row;
use crate::sample::Sample;
use crate::state::{State, STATE_BYTES};

/// The most bytes that a deck may have.
pub const DECK_LIMIT: usize = 65_536;

/// The most words.
pub(crate) const WORDS_LIMIT: usize = 2048;

/// What [`run`] returns.
#[derive(Clone, Copy, Debug, PartialEq, Eq)]
pub struct Report {
    /// 0 when all samples are used, or the number of the refusal.
    pub answer: u32,
    /// Attempts done, a refused one not among them.
    pub attempts: u32,
    /// What they cost.
    pub microcycles: u32,
}

/// A deck whose four sections are in range, and the marking of its run.
pub(crate) struct Deck<'a> {
    marking: Marking,
    pub(crate) words: Vec<u32>,
    rows: Vec<Row>,
    pub(crate) state: State,
    /// Four bytes each.
    samples: &'a [u8],
}

/// A deck's four sections, nothing known of them but their lengths.
struct Sections<'a> {
    words: &'a [u8],
    rows: &'a [u8],
    state: &'a [u8; STATE_BYTES],
    samples: &'a [u8],
}

/// Runs a deck: one attempt for each sample until all are used or one is refused.
///
/// The request of attempt `i` is written at place `i` of `requests`, four bytes low first. After
/// answers 0, 5, 6 and 8 `state` holds the state; after 9, 24 and 1-4 both buffers are untouched.
pub fn run(deck: &[u8], requests: &mut [u8], state: &mut [u8], marking: u32) -> Report {
    match opened(deck, requests, state, marking) {
        Ok((mut deck, returned)) => deck.attempts(requests, returned, Deck::attempt),
        Err(answer) => Report::refused(answer),
    }
}

impl Report {
    /// The deck is refused as a whole.
    pub(crate) fn refused(answer: u32) -> Self {
        Self {
            answer,
            attempts: 0,
            microcycles: 0,
        }
    }
}

impl Deck<'_> {
    /// One attempt with these lines.
    #[inline]
    pub(crate) fn attempt(&mut self, lines: Sample) -> Outcome {
        attempt(
            &self.words,
            &self.rows,
            &mut self.state,
            lines,
            self.marking,
        )
    }

    /// One attempt for each sample until all are used or one is refused.
    #[inline]
    pub(crate) fn attempts(
        &mut self,
        requests: &mut [u8],
        returned: &mut [u8; STATE_BYTES],
        mut attempt: impl FnMut(&mut Self, Sample) -> Outcome,
    ) -> Report {
        let mut report = Report::refused(0);
        for (place, sample) in requests.chunks_exact_mut(4).zip(items(self.samples)) {
            match attempt(self, Sample::decode(sample)) {
                Outcome::Done {
                    request,
                    microcycles,
                } => {
                    place.copy_from_slice(&request.to_le_bytes());
                    report.attempts += 1;
                    report.microcycles += microcycles;
                }
                Outcome::Refused(answer) => {
                    report.answer = answer.into();
                    break;
                }
            }
        }
        *returned = self.state.to_bytes();
        report
    }
}

/// The deck and the buffer for its state, or the refusal: 9, 24, 1, 2, 3 or 4.
pub(crate) fn opened<'a, 'b>(
    deck: &'a [u8],
    requests: &[u8],
    state: &'b mut [u8],
    marking: u32,
) -> Result<(Deck<'a>, &'b mut [u8; STATE_BYTES]), u32> {
    let returned = <&mut [u8; STATE_BYTES]>::try_from(state).map_err(|_| 9_u32)?;
    Ok((open(deck, requests.len() / 4, marking)?, returned))
}

/// The deck in these bytes, or the refusal: 9, 24, 1, 2, 3 or 4, the first that applies.
fn open(bytes: &[u8], places: usize, marking: u32) -> Result<Deck<'_>, u32> {
    if bytes.len() > DECK_LIMIT {
        return Err(9);
    }
    let sections = sections(bytes).ok_or(9_u32)?;
    let marking = Marking::from_number(marking).ok_or(24_u32)?;
    let state = State::from_bytes(sections.state).ok_or(1_u32)?;
    let words: Vec<u32> = items(sections.words)
        .map(|&word| u32::from_le_bytes(word))
        .collect();
    if words.len() > WORDS_LIMIT || words.iter().any(|&word| word >> 22 != 0) {
        return Err(2);
    }
    if sections.rows.len() > 128 * 16 {
        return Err(3);
    }
    let rows: Option<Vec<Row>> = items(sections.rows).map(Row::from_bytes).collect();
    let rows = rows.ok_or(3_u32)?;
    let samples = sections.samples;
    if samples.len() / 4 > places || !items(samples).all(Sample::in_range) {
        return Err(4);
    }
    Ok(Deck {
        marking,
        words,
        rows,
        state,
        samples,
    })
}

/// The sections, when the counts say exactly these bytes and one state.
fn sections(bytes: &[u8]) -> Option<Sections<'_>> {
    let (words, rest) = section(bytes, 4)?;
    let (rows, rest) = section(rest, 16)?;
    let (states, rest) = section(rest, STATE_BYTES)?;
    let (samples, rest) = section(rest, 4)?;
    let state = states.try_into().ok()?;
    rest.is_empty().then_some(Sections {
        words,
        rows,
        state,
        samples,
    })
}

/// A count, the bytes of as many items of this size, and the bytes after them.
pub fn section(bytes: &[u8], size: usize) -> Option<(&[u8], &[u8])> {
    let count = bytes.get(..2)?;
    let end = 2 + usize::from(u16::from_le_bytes([count[0], count[1]])) * size;
    Some((bytes.get(2..end)?, &bytes[end..]))
}

/// The whole items of a section.
#[inline]
pub(crate) fn items<const SIZE: usize>(section: &[u8]) -> impl Iterator<Item = &[u8; SIZE]> {
    let whole = |item| <&[u8; SIZE]>::try_from(item).expect("a whole item");
    section.chunks_exact(SIZE).map(whole)
}
