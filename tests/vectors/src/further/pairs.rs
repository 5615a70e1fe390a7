//! Odd pairs: the high byte's designator is the low one's with its lowest bit inverted. Crosswise
//! pairs, each one's low byte being the other's high byte: the second cycle reads what the first
//! wrote.

use crate::code::{Code, Format};
use crate::draft::{high, low, Claim, Draft};
use crate::operands::{other, Operands};
use compare::fields::registers;
use interpreter::place;

/// Drafts for a code with pairs.
pub fn drafts(code: &Code, ordinary: &Operands) -> Vec<Draft> {
    match code.format {
        Format::InputWord => vec![
            apart(code, ordinary, "odd-a", 3, ordinary.b),
            through_g(code, ordinary, "odd-a-through-g", 1, ordinary.b),
        ],
        Format::Word | Format::WordFromB => {
            let mut drafts = vec![
                apart(code, ordinary, "odd-a", 3, ordinary.b),
                apart(code, ordinary, "odd-b", ordinary.a, 5),
            ];
            drafts.extend(crosswise(code, &common(code, ordinary)));
            drafts
        }
        _ => Vec::new(),
    }
}

/// Pairs that have no register in common.
fn apart(code: &Code, ordinary: &Operands, name: &str, a: u8, b: u8) -> Draft {
    let operands = Operands {
        a,
        b,
        ..ordinary.clone()
    };
    let (letter, odd) = if a % 2 == 1 { ('a', a) } else { ('b', b) };
    let shows = format!("{letter} is odd: R{letter}'s pair is {}.", pair(odd, 0));
    Draft::executed(name, low(code, &operands), shows)
}

/// The registers of a pair under this G, high:low.
fn pair(designator: u8, g: u8) -> String {
    let [low, high] = [designator, other(designator)].map(|own| place(own, g));
    format!("{}:{}", registers()[high], registers()[low])
}

/// The operand in the two registers that both pairs have.
fn common(code: &Code, ordinary: &Operands) -> Operands {
    match code.format {
        // Ra's pair; Rb's is the same.
        Format::Word => Operands {
            q: None,
            ..ordinary.clone()
        },
        _ => ordinary.clone(),
    }
}

/// Crosswise pairs, a even, a odd and through G, and a condition that fails.
fn crosswise(code: &Code, operands: &Operands) -> Vec<Draft> {
    let with = |a: u8| Operands {
        a,
        b: other(a),
        ..operands.clone()
    };
    let draft = |name: &str, a: u8| Draft::executed(name, low(code, &with(a)), shows(code));
    let (a, b) = if code.top & 1 == 0 { (1, 0) } else { (0, 0xD) };
    let mut drafts = vec![
        draft("crosswise", 2),
        draft("crosswise-odd-a", 3),
        through_g(code, operands, "crosswise-through-g", a, b),
    ];
    if let (true, Some(input)) = (code.conditional(), code.reads()) {
        let failing = Operands {
            input: Some(false),
            ..with(2)
        };
        let shows = format!(
            "As `crosswise`, but {} is 0, all else high: registers, flags and cycles stay.",
            input.name()
        );
        let setting = high(code, &failing);
        drafts.push(Draft::new(
            "crosswise-failed",
            Claim::Failed,
            setting,
            shows,
        ));
    }
    drafts
}

/// What crosswise pairs show.
fn shows(code: &Code) -> &'static str {
    match code.mnemonic {
        "CW" | "TW" => "Crosswise pairs: nothing is written, the second cycle reads what was there.",
        "SRW" | "SRWC" => {
            "Crosswise pairs: the high byte goes first, and as Rb the second cycle reads what it wrote."
        }
        _ => "Crosswise pairs: as Rb's high byte the second cycle reads what the first wrote to Ra.",
    }
}

/// A pair by designator 0 or 1: even codes have a G of their own, odd ones share RC and RD.
fn through_g(code: &Code, operands: &Operands, name: &str, a: u8, b: u8) -> Draft {
    let g = if code.top & 1 == 0 { 5 } else { 6 };
    let operands = Operands {
        a,
        b,
        g: Some(g),
        ..operands.clone()
    };
    let mut shows = format!("G is {g}: Ra's pair is {}", pair(a, g));
    if code.format != Format::InputWord {
        shows += &format!(", Rb's pair {}", pair(b, g));
    }
    Draft::executed(name, low(code, &operands), shows + ".")
}
