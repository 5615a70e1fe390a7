//! The 167 codes that have a file: 150 listed instructions and 17 unlisted codes.

use compare::listing::{self, any_key, Waits};

/// A code and what its word holds.
pub struct Code {
    /// `B6-CW`, or `78-unlisted`.
    pub key: String,
    /// The top byte; the first where literals or jump addresses make several.
    pub top: u8,
    /// The mnemonic.
    pub mnemonic: &'static str,
    /// What its word holds.
    pub format: Format,
}

/// What the word of a code holds and works on.
#[derive(Clone, Copy, PartialEq, Eq)]
pub enum Format {
    /// JMP: an address.
    Jump,
    /// RFS: nothing.
    Return,
    /// 10-1F: an address within the page.
    Branch,
    /// A literal, and Ra.
    Literal,
    /// RI, SI, CCF, RTSR, LGL: each its own.
    Control,
    /// LCF, CIB, CDB: Ra.
    Single,
    /// Rb to Ra.
    ByteFromB,
    /// Ra and Rb.
    Byte,
    /// Rb's pair to Ra's pair.
    WordFromB,
    /// Ra's pair and Rb's pair.
    Word,
    /// An option, and data to Ra.
    InputByte,
    /// An option, and data to Ra's pair.
    InputWord,
    /// Rb:Ra.
    Address,
    /// NOP: nothing.
    Nothing,
    /// Refused with 6: nothing.
    Refused,
}

/// A flag or mark that a code reads.
#[derive(Clone, Copy, PartialEq, Eq)]
pub enum Input {
    /// C.
    C,
    /// C8.
    C8,
    /// ICS.
    Ics,
}

impl Input {
    /// Its name.
    pub fn name(self) -> &'static str {
        match self {
            Input::C => "C",
            Input::C8 => "C8",
            Input::Ics => "ICS",
        }
    }
}

impl Code {
    /// What it reads besides registers.
    pub fn reads(&self) -> Option<Input> {
        match self.top {
            0x84..=0x8B | 0xA4..=0xAB | 0xB8..=0xBB | 0xD8..=0xDB => Some(Input::C),
            0x76 | 0x77 => Some(Input::C8),
            0xAE | 0xAF => Some(Input::Ics),
            _ => None,
        }
    }

    /// Whether it changes nothing unless what it reads is 1.
    pub fn conditional(&self) -> bool {
        matches!(self.top, 0x84..=0x87 | 0xA4..=0xA7 | 0xAE | 0xAF)
    }

    /// When it waits.
    pub fn waits(&self) -> Waits {
        listing::waits(self.top)
    }

    /// Whether it has pairs.
    pub fn pairs(&self) -> bool {
        matches!(
            self.format,
            Format::WordFromB | Format::Word | Format::InputWord
        )
    }

    /// Whether a word is its own.
    pub fn has(&self, word: u32) -> bool {
        any_key((word >> 8) as u8) == self.key
    }
}

/// All codes in the order of their top bytes, each at its first.
pub fn all() -> Vec<Code> {
    let mut codes: Vec<Code> = (0..=255).map(of).collect();
    codes.dedup_by(|code, before| code.key == before.key);
    codes
}

/// The code of a top byte.
pub fn of(top: u8) -> Code {
    Code {
        key: any_key(top),
        top,
        mnemonic: listing::mnemonic(top).unwrap_or("unlisted"),
        format: format(top),
    }
}

fn format(top: u8) -> Format {
    let word = top & 2 != 0;
    match top {
        0x78..=0x7F | 0xAC | 0xAD | 0xD4..=0xD7 | 0xE8..=0xEB => Format::Refused,
        0x00..=0x07 => Format::Jump,
        0x08..=0x0F => Format::Return,
        0x10..=0x1F => Format::Branch,
        0x20..=0x6F => Format::Literal,
        0x73 | 0x76 | 0x77 => Format::Single,
        0x70..=0x75 => Format::Control,
        0x80..=0x9F | 0xBC..=0xBF | 0xD8..=0xDF if word => Format::WordFromB,
        0x80..=0x9F | 0xBC..=0xBF | 0xD8..=0xDF => Format::ByteFromB,
        0xA0..=0xD3 if word => Format::Word,
        0xA0..=0xD3 => Format::Byte,
        0xE0..=0xE7 if word => Format::InputWord,
        0xE0..=0xE7 => Format::InputByte,
        0xEC..=0xFE => Format::Address,
        0xFF => Format::Nothing,
    }
}
