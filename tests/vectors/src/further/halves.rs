//! The two cycles of a word: a zero in one byte alone, and what goes from byte to byte.

use crate::code::{self, Code, Format};
use crate::draft::{low, Draft};
use crate::operands::{borders, middling, other, Operands};
use interpreter::place;

/// What a draft needs of the operands and the result's low and high byte.
type Needs = fn(&Code, &Operands, [u8; 2]) -> bool;

/// Name, what it shows, what it needs.
const HALVES: [(&str, &str, Needs); 3] = [
    (
        "high-byte-00",
        "The high byte of the result is 00, the low is not: the zero flags see both bytes.",
        |_, _, [low, high]| low != 0 && high == 0,
    ),
    (
        "low-byte-00",
        "The low byte of the result is 00, the high is not: the zero flags see both bytes.",
        |_, _, [low, high]| low == 0 && high != 0,
    ),
    (
        "between-bytes",
        "A carry, a borrow or a shifted bit leaves one byte and enters the other.",
        |code, operands, both| bytewise(code, operands).map_or(false, |apart| apart != both),
    ),
];

/// Drafts for the codes of two cycles that set ZB, other than those there are.
pub fn drafts(code: &Code, there: &[Draft]) -> Vec<Draft> {
    let wide = match code.format {
        Format::WordFromB | Format::Word | Format::InputWord => true,
        Format::Address => matches!(code.top, 0xF2 | 0xF3 | 0xF6 | 0xF7),
        _ => false,
    };
    if !wide {
        return Vec::new();
    }
    let input = code.conditional();
    let mut all = [borders(code, input), middling(code, input)].concat();
    let there: Vec<Vec<u8>> = there.iter().map(|own| own.setting.call().deck).collect();
    all.retain(|operands| !there.contains(&low(code, operands).call().deck));
    let mut drafts = Vec::new();
    for (name, shows, needs) in HALVES {
        let fits = |operands: &Operands| needs(code, operands, result(code, operands));
        if let Some(at) = all.iter().position(fits) {
            // Taken out, so that no two drafts are the same.
            let operands = all.remove(at);
            drafts.push(Draft::executed(name, low(code, &operands), shows));
        }
    }
    drafts
}

/// The result, for compare and test that of the code which does the same and stores it.
fn result(code: &Code, operands: &Operands) -> [u8; 2] {
    let storing = match code.mnemonic {
        "CW" | "TW" => code::of(code.top - 4),
        _ => code::of(code.top),
    };
    let setting = low(&storing, operands);
    let left = setting.interpreted();
    let low = place(operands.a, setting.state.g);
    let high = match code.format {
        Format::Address => place(operands.b, setting.state.g),
        _ => place(other(operands.a), setting.state.g),
    };
    [left.state[low], left.state[high]]
}

/// What the byte code would make of each byte alone; nothing for codes that take bytes as they are.
fn bytewise(code: &Code, operands: &Operands) -> Option<[u8; 2]> {
    let byte = code::of(match code.mnemonic {
        "CAWI" => 0xA0,
        "CW" | "TW" => code.top - 6,
        _ => code.top - 2,
    });
    let half = |shift: u32| {
        let part = |value: Option<u16>| value.map(|value| value >> shift & 0xFF);
        let own = Operands {
            b: 3,
            p: part(operands.p),
            q: part(operands.q),
            ..operands.clone()
        };
        low(&byte, &own).interpreted().state[place(own.a, 0)]
    };
    match code.format {
        Format::WordFromB | Format::Word => Some([half(0), half(8)]),
        Format::Address => Some(result(&byte, operands)),
        _ => None,
    }
}
