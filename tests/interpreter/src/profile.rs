//! The service profile for plants' microcode: a check of words alone.

use crate::code::CODES;
use crate::deck::{items, WORDS_LIMIT};
use crate::execute::LOAD_RR;

/// What [`profile`] returns.
#[derive(Clone, Copy, Debug, PartialEq, Eq)]
pub struct Profile {
    /// 0 when the words are accepted, 2, or 25 when the profile is broken.
    pub answer: u32,
    /// With 2 and 25 the offending address, else 0.
    pub address: u32,
    /// With 25 the first rule broken there, else 0.
    pub rule: u32,
}

/// Checks the words in these bytes, four each.
pub fn profile(bytes: &[u8]) -> Profile {
    let words = || (0..).zip(items(bytes).map(|&word| u32::from_le_bytes(word)));
    let large = words().take(WORDS_LIMIT).find(|(_, word)| word >> 22 != 0);
    let (answer, address, rule) = match large {
        Some((address, _)) => (2, address, 0),
        None if bytes.len() > 4 * WORDS_LIMIT || bytes.len() % 4 != 0 => (2, WORDS_LIMIT as u32, 0),
        None => words()
            .find_map(|(address, word)| Some((25, address, broken(address, word)?)))
            .unwrap_or((0, 0, 0)),
    };
    Profile {
        answer,
        address,
        rule,
    }
}

/// The first rule that the word at this address breaks.
fn broken(address: u32, word: u32) -> Option<u32> {
    let top = (word >> 8) as u8;
    let jump = matches!(top, 0x00..=0x07);
    let conditional_jump = matches!(top, 0x10..=0x1F);
    let rules = [
        matches!(top, 0xEC | 0xED),
        word & LOAD_RR != 0 && !jump && !conditional_jump,
        address == 0 && !jump && top != 0xFF,
        CODES[usize::from(top)].cycles == 0,
    ];
    (1..)
        .zip(rules)
        .find_map(|(rule, broken)| broken.then_some(rule))
}
