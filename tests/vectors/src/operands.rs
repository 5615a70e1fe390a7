//! What a word works on, and the setting that it makes.

use crate::background::Background;
use crate::code::{Code, Format, Input};
use crate::setting::Setting;
use interpreter::{place, State};

/// Bytes that are no border.
const BYTES: [u16; 14] = [
    0x34, 0x12, 0x25, 0x47, 0x56, 0x63, 0x78, 0x87, 0x96, 0xA9, 0xB4, 0xC5, 0xDA, 0xED,
];

/// Bytes where a sign, a carry or a zero begins.
const BYTE_BORDERS: [u16; 7] = [0x00, 0x01, 0x7F, 0x80, 0xFF, 0x7E, 0xFE];

/// Words that are no border.
const WORDS: [u16; 14] = [
    0x1234, 0x2548, 0x3456, 0x4763, 0x5678, 0x6387, 0x7896, 0x87A9, 0x96B4, 0xA9C5, 0xB4DA, 0xC5ED,
    0xDA12, 0xED25,
];

/// Words where a sign, a carry or a zero begins, or a byte ends.
const WORD_BORDERS: [u16; 13] = [
    0x0000, 0x0001, 0x7FFF, 0x8000, 0xFFFF, 0x00FF, 0x0100, 0x7FFE, 0xFFFE, 0x00FE, 0x007F, 0x0080,
    0x0008,
];

/// What a word works on. What is not there is the background's.
#[derive(Clone, Default, PartialEq, Eq)]
pub struct Operands {
    /// The designator a.
    pub a: u8,
    /// The designator b, or the mask or option in its place.
    pub b: u8,
    /// The literal.
    pub literal: u8,
    /// Ra, its pair, or Rb:Ra.
    pub p: Option<u16>,
    /// Rb or its pair.
    pub q: Option<u16>,
    /// The data on DAL.
    pub data: Option<u16>,
    /// The flag or mark that the code reads.
    pub input: Option<bool>,
    /// G, where a designator is 0 or 1.
    pub g: Option<u8>,
}

impl Operands {
    /// The setting of one attempt.
    pub fn setting(&self, code: &Code, background: Background) -> Setting {
        let mut state = background.state();
        state.g = self.g.unwrap_or(state.g);
        self.fill(code, &mut state);
        if let (Some(input), Some(high)) = (code.reads(), self.input) {
            set_input(&mut state, input, high);
        }
        let mut sample = background.sample(code);
        sample.data = self.data.unwrap_or(sample.data);
        Setting::single(self.word(code), state, sample)
    }

    fn word(&self, code: &Code) -> u32 {
        let field = match code.format {
            Format::Literal => u32::from(self.literal) << 4,
            _ => u32::from(self.b) << 4,
        };
        u32::from(code.top) << 8 | field | u32::from(self.a)
    }

    /// Puts the operands in their registers.
    fn fill(&self, code: &Code, state: &mut State) {
        let (a, b, g) = (self.a, self.b, state.g);
        let mut put = |designator: u8, value: u16| {
            state.registers[place(designator, g)] = value as u8;
        };
        match (code.format, self.p) {
            (Format::Address, Some(p)) => {
                put(b, p >> 8);
                put(a, p);
            }
            (Format::Word, Some(p)) => {
                put(a, p);
                put(other(a), p >> 8);
            }
            (_, Some(p)) => put(a, p),
            (_, None) => {}
        }
        match (code.format, self.q) {
            (Format::Word | Format::WordFromB, Some(q)) => {
                put(b, q);
                put(other(b), q >> 8);
            }
            (_, Some(q)) => put(b, q),
            (_, None) => {}
        }
    }

    /// In how many bits two differ.
    pub fn distance(&self, other: &Self) -> u32 {
        let number = |value: Option<u16>| value.unwrap_or(0);
        let bits = |p: Option<u16>, q: Option<u16>| (number(p) ^ number(q)).count_ones();
        let literals = (self.literal ^ other.literal).count_ones();
        literals + bits(self.p, other.p) + bits(self.q, other.q) + bits(self.data, other.data)
    }
}

/// The designator of the high byte of a pair, by that of its low byte.
pub fn other(designator: u8) -> u8 {
    designator ^ 1
}

fn set_input(state: &mut State, input: Input, high: bool) {
    let bit = match input {
        Input::C => 0x10,
        Input::C8 => 0x01,
        Input::Ics => {
            state.ics = high;
            return;
        }
    };
    state.flags = state.flags & !bit | (u8::from(high) * bit);
}

/// Operands that are no border, what the code reads being as `input`.
pub fn middling(code: &Code, input: bool) -> Vec<Operands> {
    let mut all = candidates(code, &BYTES, &WORDS, input);
    // A value with itself is a case of its own.
    all.retain(|operands| operands.p.is_none() || operands.p != operands.q);
    all
}

/// Operands at a border.
pub fn borders(code: &Code, input: bool) -> Vec<Operands> {
    candidates(code, &BYTE_BORDERS, &WORD_BORDERS, input)
}

fn candidates(code: &Code, bytes: &[u16], words: &[u16], input: bool) -> Vec<Operands> {
    let basis = Operands {
        a: 2,
        b: 3,
        input: code.reads().map(|_| input),
        ..Operands::default()
    };
    let q = |basis: &Operands, values: &[u16]| -> Vec<Operands> {
        let of = |&q: &u16| Operands {
            q: Some(q),
            ..basis.clone()
        };
        values.iter().map(of).collect()
    };
    let p = |basis: &Operands, values: &[u16]| -> Vec<Operands> {
        let of = |&p: &u16| Operands {
            p: Some(p),
            ..basis.clone()
        };
        values.iter().map(of).collect()
    };
    let pairs = Operands {
        b: 4,
        ..basis.clone()
    };
    match code.format {
        Format::Literal => literals(code, p(&basis, bytes), bytes),
        Format::Single => p(&single(code, basis), bytes),
        Format::ByteFromB => q(&basis, bytes),
        Format::Byte => p(&basis, bytes).iter().flat_map(|o| q(o, bytes)).collect(),
        Format::WordFromB => q(&pairs, words),
        Format::Word => p(&pairs, words).iter().flat_map(|o| q(o, words)).collect(),
        Format::InputByte | Format::InputWord => inputs(&basis, words),
        Format::Address => p(&basis, words),
        _ => vec![basis],
    }
}

/// With each literal; LL does not look at Ra.
fn literals(code: &Code, all: Vec<Operands>, bytes: &[u16]) -> Vec<Operands> {
    let looks = code.mnemonic != "LL";
    let with = |operands: &Operands| -> Vec<Operands> {
        let of = |&literal: &u16| Operands {
            literal: literal as u8,
            p: operands.p.filter(|_| looks),
            ..operands.clone()
        };
        bytes.iter().map(of).collect()
    };
    let count = if looks { all.len() } else { 1 };
    all[..count].iter().flat_map(with).collect()
}

/// LCF with all four flags; b of the others is don't-care.
fn single(code: &Code, basis: Operands) -> Operands {
    let b = if code.mnemonic == "LCF" { 15 } else { 0 };
    Operands { b, ..basis }
}

/// Data, the option being 0.
fn inputs(basis: &Operands, words: &[u16]) -> Vec<Operands> {
    let of = |&data: &u16| Operands {
        b: 0,
        data: Some(data),
        ..basis.clone()
    };
    words.iter().map(of).collect()
}
