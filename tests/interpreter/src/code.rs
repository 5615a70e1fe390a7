//! What each top byte asks before it is executed.

/// One of the 256 top bytes.
#[derive(Clone, Copy)]
pub(crate) struct Code {
    /// Microcycles when executed; 0 for a code that is refused, unlisted or AC.
    pub(crate) cycles: u8,
    /// Bits of the word that are clear in every listed option (refusal 8).
    pub(crate) options: u8,
    /// When the code waits.
    pub(crate) wait: Wait,
}

/// When a code waits.
#[derive(Clone, Copy, PartialEq, Eq)]
pub(crate) enum Wait {
    /// Never.
    Never,
    /// While REPLY or BUSY is high.
    Occupied,
    /// While REPLY is low.
    Unanswered,
}

/// One entry for each top byte.
pub(crate) const CODES: [Code; 256] = codes();

const fn codes() -> [Code; 256] {
    let mut codes = [code(0); 256];
    let mut top = 0;
    while top < 256 {
        codes[top] = code(top as u8);
        top += 1;
    }
    codes
}

const fn code(top: u8) -> Code {
    let word = top & 2 != 0;
    Code {
        cycles: match top {
            0x78..=0x7F | 0xAC | 0xAD | 0xD4..=0xD7 | 0xE8..=0xEB => 0,
            0x00..=0x1F => 2,
            0x20..=0x77 | 0xF8..=0xFF => 1,
            _ => 1 + word as u8,
        },
        options: match top {
            0xE0..=0xE3 => 0x80,
            0xE4 | 0xE5 => 0xC0,
            _ => 0,
        },
        wait: match top {
            0xF0..=0xFB => Wait::Occupied,
            0xE0..=0xE3 | 0xFC | 0xFD => Wait::Unanswered,
            _ => Wait::Never,
        },
    }
}
