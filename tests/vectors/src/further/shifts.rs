//! Shifts: V by the top two bits of what is shifted, whatever C is; right shifts clear it.

use crate::code::Code;
use crate::draft::{high, low, Draft};
use crate::operands::Operands;
use crate::shows;

/// The top two bits and a word that has them; a byte is its high byte. Bits 6 and 5 of that byte, bits
/// 3 and 2, and the top two of the low byte would give the other V of a left shift.
const TOPS: [(&str, u16); 4] = [
    ("00", 0x3A8D),
    ("01", 0x6C31),
    ("10", 0x9DCE),
    ("11", 0xC772),
];

/// Drafts for the shifts.
pub fn drafts(code: &Code, ordinary: &Operands) -> Vec<Draft> {
    let tells = match code.top {
        0x89 | 0x8B | 0x8D | 0x8F => "V tells whether they differ",
        0xD9 | 0xDB | 0xDD | 0xDF => "V is cleared",
        0x88..=0x8F | 0xD8..=0xDF => "V is kept",
        _ => return Vec::new(),
    };
    let both = |&(bits, word): &(&str, u16)| {
        let operands = Operands {
            q: Some(if code.pairs() { word } else { word >> 8 }),
            // C is the background's.
            input: None,
            ..ordinary.clone()
        };
        let shows = |level: &str| {
            let operands = shows::written(code, &operands);
            format!(
                "{operands}: the top two bits are {bits}, {tells}; C and all else {level} before."
            )
        };
        let name = format!("top-{bits}");
        [
            Draft::executed(&name, low(code, &operands), shows("low")),
            Draft::executed(&(name + "-c"), high(code, &operands), shows("high")),
        ]
    };
    TOPS.iter().flat_map(both).collect()
}
