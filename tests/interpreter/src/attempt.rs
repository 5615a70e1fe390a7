//! One attempt: refusals, waiting, and the way to the next word.

use crate::code::{Wait, CODES};
use crate::execute::{execute, request, LOAD_RR, RNI};
use crate::marking::Marking;
use crate::row::{pack, translate, Row};
use crate::sample::Sample;
use crate::state::State;

/// What came of an attempt.
#[derive(Clone, Copy, Debug, PartialEq, Eq)]
pub enum Outcome {
    /// It is done; a wait, RESET and COMPUTE low are too.
    Done {
        /// Kind times 65,536 plus a value.
        request: u32,
        /// What it cost.
        microcycles: u32,
    },
    /// It is refused with number 5, 6 or 8, or with a memory 17, and the state is as it was.
    Refused(u8),
}

/// One attempt with this sample, on a board of this marking.
#[inline]
pub fn attempt(
    words: &[u32],
    rows: &[Row],
    state: &mut State,
    sample: Sample,
    marking: Marking,
) -> Outcome {
    if sample.reset {
        state.lc = 1;
        state.sync = false;
        state.iack = false;
        state.modification = None;
        return idle(11);
    }
    if !sample.compute {
        return idle(12);
    }
    let word = match taken(words, state) {
        Some(word) => word,
        None => return Outcome::Refused(5),
    };
    let code = CODES[usize::from((word >> 8) as u8)];
    if code.cycles == 0 {
        return Outcome::Refused(6);
    }
    if word as u8 & code.options != 0 {
        return Outcome::Refused(8);
    }
    if waits(code.wait, sample) {
        return idle(10);
    }
    Outcome::Done {
        request: perform(word, rows, state, sample, marking),
        microcycles: u32::from(code.cycles),
    }
}

/// The word at LC with the waiting modification ORed in, if there is one.
#[inline]
pub(crate) fn taken(words: &[u32], state: &State) -> Option<u32> {
    let stored = words.get(usize::from(state.lc))?;
    Some(stored | u32::from(state.modification.unwrap_or(0)))
}

/// An attempt that executes no word.
#[inline]
fn idle(kind: u32) -> Outcome {
    Outcome::Done {
        request: request(kind, 0),
        microcycles: 1,
    }
}

#[inline]
fn waits(wait: Wait, sample: Sample) -> bool {
    match wait {
        Wait::Never => false,
        Wait::Occupied => sample.reply || sample.busy,
        Wait::Unanswered => !sample.reply,
    }
}

/// Executes the word, translates, and goes to the next word; gives the request.
#[inline]
fn perform(word: u32, rows: &[Row], state: &mut State, sample: Sample, marking: Marking) -> u32 {
    // Rows see the state before the attempt.
    let translated = translate(rows, key(word, state, sample));
    let next = (state.lc + 1) & 2047;
    let otherwise = if translated.returns() {
        state.rr
    } else {
        translated.address().unwrap_or(next)
    };
    // Before the execution, so that RTSR and MI have the last word.
    state.modification = None;
    if let Some(tsr) = translated.tsr() {
        state.tsr = tsr;
    }
    let done = execute(word, state, sample, marking);
    state.lc = done.jump.unwrap_or(otherwise);
    if word & LOAD_RR != 0 {
        state.rr = next;
    }
    state.outputs = (word >> 18) as u8 & 15;
    done.request
}

/// What rows are compared with.
#[inline]
fn key(word: u32, state: &State, sample: Sample) -> u32 {
    let [lower, upper] = state.tr.to_le_bytes();
    let tr = if state.tsr & 4 == 0 { upper } else { lower };
    let interrupts = sample.interrupts | state.internal << 4;
    pack(state.lc, word & RNI != 0, tr, state.tsr, interrupts)
}
