//! What a vector starts from and must come to.

use crate::vector::{Term, Vector};
use compare::call::{Call, Left};
use compare::deck::words_to;
use compare::describe::{RESET, WAIT};
use compare::fields::registers;
use compare::{flags, lines};
use interpreter::decks::Single;
use interpreter::{Report, State, STATE_BYTES};

/// A call and what it must leave behind.
pub struct Setting<'a> {
    vector: &'a Vector,
    /// Whether what it does not name is high.
    high: bool,
    /// The deck of one sample.
    pub call: Call,
    /// What must be after.
    pub expected: Left,
}

impl<'a> Setting<'a> {
    /// The vector's setting, with all that it does not name low or high.
    pub fn new(vector: &'a Vector, high: bool) -> Result<Self, String> {
        let mut before = background(high);
        set_all(&mut before, &vector.before)?;
        let single = Single {
            words: words_to(before.lc, vector.word),
            rows: Vec::new(),
            state: before.to_bytes(),
            sample: sample(&vector.sample, high)?,
            marking: vector.marking,
        };
        let call = Call::patterned(single.deck(), 8, STATE_BYTES);
        let call = call.marked(single.marking.number());
        let expected = expected(vector, &call, before)?;
        Ok(Self {
            vector,
            high,
            call,
            expected,
        })
    }

    /// Which vector it is of, and how the rest is.
    pub fn title(&self) -> String {
        let rest = if self.high { "high" } else { "low" };
        let Vector { line, key, .. } = self.vector;
        format!("line {line}, {key}, the rest {rest}")
    }
}

/// The state before any name is set.
fn background(high: bool) -> State {
    compare::background::state(high, if high { 0x7A5 } else { 0x012 })
}

fn set_all(state: &mut State, terms: &[Term]) -> Result<(), String> {
    for (name, number) in terms {
        set(state, name, *number).ok_or_else(|| format!("{name} cannot be {number:X}"))?;
    }
    Ok(())
}

/// Sets one name, when there is such a name and the number fits it.
fn set(state: &mut State, name: &str, number: u32) -> Option<()> {
    let (byte, word) = (u8::try_from(number).ok(), u16::try_from(number).ok());
    let bit = byte.filter(|&byte| byte < 2);
    if let Some(at) = registers().iter().position(|own| own == name) {
        state.registers[at] = byte?;
        return Some(());
    }
    if let Some(flag) = flags::bit(name) {
        set_bits(&mut state.flags, flag, bit?);
        return Some(());
    }
    match name {
        "G" => state.g = byte?,
        "LC" => state.lc = word?,
        "RR" => state.rr = word?,
        "TR" => state.tr = word?,
        "M" => state.m = word?,
        "TSR" => state.tsr = byte?,
        "ICS" => state.ics = bit? == 1,
        "SYNC" => state.sync = bit? == 1,
        "IACK" => state.iack = bit? == 1,
        "I4" => set_bits(&mut state.internal, 1, bit?),
        "I5" => set_bits(&mut state.internal, 2, bit?),
        "I6" => set_bits(&mut state.internal, 4, bit?),
        "MOD" => state.modification = Some(word?),
        "outputs" => state.outputs = byte?,
        _ => return None,
    }
    Some(())
}

/// Sets the bits of a mask, all to the same.
fn set_bits(byte: &mut u8, mask: u8, bit: u8) {
    *byte = *byte & !mask | (mask * bit);
}

/// The sample's four bytes: COMPUTE is high and RESET low where they are not named.
fn sample(terms: &[Term], high: bool) -> Result<[u8; 4], String> {
    let all = if high { 0xFF } else { 0 };
    let rest = lines::REPLY | lines::BUSY | lines::ICS;
    let mut sample = [all, all, all & rest | lines::COMPUTE, all & 15];
    for (name, number) in terms {
        match (name.as_str(), lines::line(name), number) {
            ("DATA", _, 0..=0xFFFF) => {
                sample[..2].copy_from_slice(&(*number as u16).to_le_bytes());
            }
            (_, Some(line), 0..=1) => set_bits(&mut sample[2], line, *number as u8),
            _ => return Err(format!("{name} cannot be {number:X}")),
        }
    }
    Ok(sample)
}

/// What the call must leave behind.
fn expected(vector: &Vector, call: &Call, before: State) -> Result<Left, String> {
    let mut left = Left {
        report: Report {
            answer: 0,
            attempts: 0,
            microcycles: 0,
        },
        damage: 0,
        requests: call.requests.clone(),
        state: before.to_bytes().to_vec(),
    };
    if let Some(answer) = vector.gives("answer") {
        left.report.answer = answer;
        return Ok(left);
    }
    left.report.attempts = 1;
    left.report.microcycles = vector.gives("cycles").ok_or("no cycles")?;
    let request = vector.gives("request").unwrap_or(0);
    left.requests[..4].copy_from_slice(&request.to_le_bytes());
    let mut after = unnamed(request >> 16, before);
    let of_state = |(name, _): &&Term| !matches!(name.as_str(), "cycles" | "request");
    let terms: Vec<Term> = vector.after.iter().filter(of_state).cloned().collect();
    set_all(&mut after, &terms)?;
    left.state = after.to_bytes().to_vec();
    Ok(left)
}

/// The state after an attempt of this kind, as far as a vector names nothing. An executed word
/// leaves outputs of 0, so that a vector whose word has others must name them.
fn unnamed(kind: u32, before: State) -> State {
    match kind {
        RESET => State {
            modification: None,
            ..before
        },
        WAIT.. => before,
        _ => State {
            lc: (before.lc + 1) % 2048,
            modification: None,
            outputs: 0,
            ..before
        },
    }
}
