//! The fields of a state by their names in the trace.

use crate::cutter::{MARKS, WAITING};
use compare::fields::registers;
use interpreter::STATE_BYTES;

/// The bytes of a state.
pub type Bytes = [u8; STATE_BYTES];

/// What stands for a modification that is not waiting.
const NONE: &str = "-";
const MODIFICATION: usize = 39;

/// A field: its first byte, its lowest bit there and its number of bits.
struct Field {
    name: String,
    at: usize,
    shift: u32,
    bits: u32,
}

/// All fields, in the order of the trace.
pub struct Fields(Vec<Field>);

/// A field's name, its value before and its value after.
pub type Change<'a> = [&'a str; 3];

/// Those behind the registers.
const OTHERS: [(&str, usize, u32, u32); 21] = [
    ("N", 27, 7, 1),
    ("Z", 27, 6, 1),
    ("V", 27, 5, 1),
    ("C", 27, 4, 1),
    ("NB", 27, 3, 1),
    ("ZB", 27, 2, 1),
    ("C4", 27, 1, 1),
    ("C8", 27, 0, 1),
    ("I4", 38, 0, 1),
    ("I5", 38, 1, 1),
    ("I6", 38, 2, 1),
    ("LC", 28, 0, 11),
    ("RR", 30, 0, 11),
    ("outputs", 41, 0, 4),
    ("TR", 32, 0, 16),
    ("M", 34, 0, 16),
    ("TSR", 36, 0, 3),
    ("ICS", MARKS, 0, 1),
    ("SYNC", MARKS, 1, 1),
    ("IACK", MARKS, 2, 1),
    ("modification", MODIFICATION, 0, 16),
];

impl Fields {
    /// G0-GB, G, R2-RF, then the others.
    pub fn new() -> Self {
        let field = |name: &str, at, shift, bits| Field {
            name: name.to_string(),
            at,
            shift,
            bits,
        };
        let names = registers().into_iter().enumerate();
        let mut all: Vec<Field> = names.map(|(at, name)| field(&name, at, 0, 8)).collect();
        all.insert(12, field("G", 26, 0, 3));
        all.extend(OTHERS.map(|(name, at, shift, bits)| field(name, at, shift, bits)));
        Self(all)
    }

    /// Makes an attempt's changes on a state, or says which is none.
    pub fn apply(&self, changes: &[Change<'_>], state: &mut Bytes) -> Result<(), String> {
        let mut left = self.0.iter();
        for [name, before, after] in changes {
            let field = left.find(|field| field.name == *name);
            let field = field.ok_or(format!("{name} is no field, or out of order"))?;
            let kept = field.text(state);
            if kept != *before {
                return Err(format!("{name} changes from {before}, and was {kept}"));
            }
            if before == after {
                return Err(format!("{name} {before} is no change"));
            }
            let put = field.put(state, after);
            put.ok_or(format!("{name} cannot be {after}"))?;
        }
        Ok(())
    }

    /// The fields in which two states differ.
    pub fn differences(&self, expected: &Bytes, got: &Bytes) -> String {
        let pairs = self.0.iter().map(|field| {
            let [expected, got] = [expected, got].map(|state| field.text(state));
            (&field.name, expected, got)
        });
        let unlike = pairs.filter(|(_, expected, got)| expected != got);
        let unlike = unlike
            .map(|(name, expected, got)| format!("{name}: expected {expected}, traced {got}"));
        unlike.collect::<Vec<String>>().join("; ")
    }
}

impl Field {
    fn mask(&self) -> u16 {
        (((1 << self.bits) - 1) << self.shift) as u16
    }

    /// The value in as many digits as its bits need.
    fn text(&self, state: &Bytes) -> String {
        if self.at == MODIFICATION && state[MARKS] & WAITING == 0 {
            return NONE.to_string();
        }
        let high = if self.bits > 8 { state[self.at + 1] } else { 0 };
        let value = (u16::from_le_bytes([state[self.at], high]) & self.mask()) >> self.shift;
        format!("{value:0digits$X}", digits = (self.bits as usize + 3) / 4)
    }

    /// Writes a value; nothing when the text is none of this field.
    fn put(&self, state: &mut Bytes, text: &str) -> Option<()> {
        let none = self.at == MODIFICATION && text == NONE;
        let value = match none {
            true => 0,
            false => u16::from_str_radix(text, 16).ok()? << self.shift,
        };
        let [low, high] = value.to_le_bytes();
        let [low_mask, high_mask] = self.mask().to_le_bytes();
        state[self.at] = state[self.at] & !low_mask | low & low_mask;
        if self.bits > 8 {
            state[self.at + 1] = state[self.at + 1] & !high_mask | high & high_mask;
        }
        if self.at == MODIFICATION {
            state[MARKS] = state[MARKS] & !WAITING | if none { 0 } else { WAITING };
        }
        (self.text(state) == text).then_some(())
    }
}
