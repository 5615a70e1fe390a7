//! What the vectors of chosen operands show, in a line.

use crate::code::Code;
use crate::code::Format::{Address, Literal, Word, WordFromB};
use crate::operands::Operands;
use compare::flags;

/// The operands by name and value.
pub fn written(code: &Code, operands: &Operands) -> String {
    let wide = matches!(code.format, Word | WordFromB | Address);
    let value = |value: u16| match wide {
        true => format!("{value:04X}"),
        false => format!("{value:02X}"),
    };
    let (p, q) = match code.format {
        Word | WordFromB => ("Ra's pair", "Rb's pair"),
        Address => ("Rb:Ra", ""),
        _ => ("Ra", "Rb"),
    };
    let mut parts = Vec::new();
    parts.extend(operands.p.map(|own| format!("{p} {}", value(own))));
    parts.extend(operands.q.map(|own| format!("{q} {}", value(own))));
    if code.format == Literal {
        parts.push(format!("literal {:02X}", operands.literal));
    }
    parts.extend(operands.data.map(|own| format!("data {own:04X}")));
    if let (Some(input), Some(high)) = (code.reads(), operands.input) {
        parts.push(format!("{} {}", input.name(), u8::from(high)));
    }
    parts.join(", ")
}

/// `ordinary`.
pub fn ordinary(code: &Code, operands: &Operands) -> String {
    let but = match (code.conditional(), code.reads()) {
        (true, Some(input)) => format!("the condition {} holds, the rest", input.name()),
        _ => "flags and marks".to_string(),
    };
    format!(
        "{}: middling values; {but} low before.",
        written(code, operands)
    )
}

/// `edge`.
pub fn edge(code: &Code, operands: &Operands) -> String {
    format!(
        "{}: values at the border, in the last word of all, where LC goes round.",
        written(code, operands)
    )
}

/// `other`: which flags come out the other way, which cannot, and which are kept. `after` are the
/// flags of `ordinary` and its own.
pub fn other(code: &Code, operands: &Operands, after: [u8; 2], sets: u8) -> String {
    let [ordinary, other] = after;
    let opposite = (ordinary ^ other) & sets;
    let same = sets & !opposite;
    let parts = [
        (opposite, "the other way than in `ordinary`"),
        (same & !other, "0 in both"),
        (same & other, "1 in both"),
        (other & !sets, "kept at 1"),
    ];
    let parts = parts.iter().filter(|(set, _)| *set != 0);
    let parts: Vec<String> = parts
        .map(|(set, how)| format!("{} {how}", flags::names(*set)))
        .collect();
    let operands = written(code, operands);
    format!("{operands}: all high before. {}.", parts.join(", "))
}
