//! What the codes with registers share: the flag that they read, and G; literals.

use crate::code::{Code, Format};
use crate::draft::{high, low, Claim, Draft};
use crate::operands::Operands;
use compare::fields::registers;
use interpreter::place;

/// The same operands with what the code reads the other way.
pub fn input(code: &Code, ordinary: &Operands) -> Option<Draft> {
    let input = code.reads()?.name();
    let turned = Operands {
        input: Some(ordinary.input != Some(true)),
        ..ordinary.clone()
    };
    Some(match code.conditional() {
        true => Draft::new(
            "failed",
            Claim::Failed,
            high(code, &turned),
            format!(
                "As `ordinary`, but {input} is 0, all else high: registers, flags and cycles stay, not the outputs."
            ),
        ),
        false => Draft::executed(
            "carry",
            low(code, &turned),
            format!("As `ordinary`, but {input} is 1 before and comes in."),
        ),
    })
}

/// A designator of 0 or 1, through G.
pub fn through_g(code: &Code, ordinary: &Operands) -> Draft {
    // Even and odd codes of one instruction show a G of its own and one that is shared.
    let g = if code.top & 1 == 0 { 5 } else { 6 };
    let (a, b) = match code.format {
        Format::ByteFromB | Format::Byte | Format::Address => (0, 1),
        Format::WordFromB | Format::Word | Format::InputWord => (0, ordinary.b),
        _ => (1, ordinary.b),
    };
    let operands = Operands {
        a,
        b,
        g: Some(g),
        ..ordinary.clone()
    };
    let register = |designator: u8| registers()[place(designator, g)].clone();
    let mut shows = format!("G is {g}: a {a} is {}", register(a));
    if b == 1 && a == 0 {
        shows += &format!(", b 1 is {}", register(1));
    }
    shows += if g == 6 {
        ", for GC-GF are RC-RF."
    } else {
        "."
    };
    Draft::executed("through-g", low(code, &operands), shows)
}

/// The lowest and highest literal, and one that a modification makes.
pub fn literals(code: &Code, ordinary: &Operands) -> Vec<Draft> {
    let extreme = |name: &str, literal: u8, word: &str| {
        let operands = Operands {
            literal,
            ..ordinary.clone()
        };
        let shows = format!("The {word} literal, {literal:02X}.");
        Draft::executed(name, low(code, &operands), shows)
    };
    let bare = Operands {
        literal: 0,
        ..ordinary.clone()
    };
    let mut modified = low(code, &bare);
    modified.state.modification = Some(u16::from(ordinary.literal) << 4);
    vec![
        extreme("literal-00", 0x00, "lowest"),
        extreme("literal-ff", 0xFF, "highest"),
        Draft::executed(
            "modified",
            modified,
            "A waiting modification is ORed into the word and gives the literal; it is used up.",
        ),
    ]
}
