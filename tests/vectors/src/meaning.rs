//! What each code does, in a sentence, as the manual's 5.3.1 and 01 have it.

use crate::code::{Code, Format};
use compare::listing;

/// 80-DF, four codes to an entry; `A` and `B` are registers or pairs.
const REGISTERS: [&str; 24] = [
    "moves B to A",
    "moves B to A if C is 1",
    "shifts B left by one to A, the C flag coming in",
    "shifts B left by one to A, 0 coming in",
    "puts B + 1 in A",
    "puts B + 2 in A",
    "puts 0 - B in A",
    "puts the ones complement of B in A",
    "adds B to A",
    "adds B to A if C is 1",
    "adds B and the C flag to A",
    "adds B to A if ICS is 1",
    "subtracts B from A",
    "compares: A - B sets the flags, no register is written",
    "subtracts B and the C flag from A",
    "puts B - 1 in A",
    "ANDs B into A",
    "tests: A AND B sets the flags, no register is written",
    "ORs B into A",
    "exclusive-ORs B into A",
    "ANDs the ones complement of B into A",
    "",
    "shifts B right by one to A, the C flag coming in",
    "shifts B right by one to A, 0 coming in",
];

/// 70-77.
const CONTROLS: [&str; 8] = [
    "clears I4-I6 where b bits 0-2 are 1",
    "sets I4-I6 where b bits 0-2 are 1",
    "stores the flag byte in Ra",
    "loads N Z V C from Ra bits 7-4 where b bits 3-0 are 1",
    "clears TSR",
    "loads G with Ra bits 2-0",
    "adds C8 to Ra",
    "adds FF and C8 to Ra",
];

/// F0-FF.
const ACCESSES: [&str; 16] = [
    "reads at Rb:Ra, then Ra gains 1",
    "writes at Rb:Ra, then Ra gains 1",
    "reads at Rb:Ra, then Ra gains 1 and Rb the carry",
    "writes at Rb:Ra, then Ra gains 1 and Rb the carry",
    "reads at Rb:Ra, then Ra gains 2",
    "writes at Rb:Ra, then Ra gains 2",
    "reads at Rb:Ra, then Ra gains 2 and Rb the carry",
    "writes at Rb:Ra, then Ra gains 2 and Rb the carry",
    "reads at Rb:Ra",
    "writes at Rb:Ra",
    "reads at Rb:Ra with IACK",
    "writes at Rb:Ra with IACK",
    "puts Rb:Ra out as a byte, then lets the bus go",
    "puts Rb:Ra out as a word, then lets the bus go",
    "puts Rb:Ra out as status, whatever REPLY and BUSY are",
    "does nothing but go on",
];

/// One sentence about a code.
pub fn sentence(code: &Code) -> String {
    let at = usize::from(code.top);
    let does = match code.top {
        0x00..=0x07 => "jumps to the address in bits 10-0".to_string(),
        0x08..=0x0F => "returns: jumps to the address in RR".to_string(),
        0x10..=0x1F => branch(code),
        0x20..=0x6F => literal(code).to_string(),
        _ if code.key == listing::LEFT_OUT => "is left out and refused with 6".to_string(),
        _ if code.format == Format::Refused => {
            return format!("The code {at:02X} is unlisted and refused with 6.")
        }
        0x70..=0x7F => CONTROLS[at & 7].to_string(),
        0x80..=0xDF => register(code),
        0xE0..=0xE7 => input(code).to_string(),
        0xE8..=0xED => "lets Rb:Ra wait as the modification of the next word".to_string(),
        0xEE | 0xEF => "loads TR with Rb:Ra".to_string(),
        0xF0..=0xFF => ACCESSES[at & 15].to_string(),
    };
    let too = match code.top {
        0x81..=0xDF | 0xE1..=0xE7 if code.top & 1 == 1 => "; the odd code sets condition flags too",
        _ => "",
    };
    format!("{} {does}{too}.", code.mnemonic)
}

fn branch(code: &Code) -> String {
    let (tested, wanted) = tested(code);
    let wanted = u8::from(wanted);
    format!("jumps to the address in bits 7-0, within its page, if {tested} is {wanted}")
}

/// What a conditional jump tests, and what it must be: JZBF has ZB and false in its name, JIT has
/// ICS and true.
pub fn tested(code: &Code) -> (&'static str, bool) {
    let end = code.mnemonic.len() - 1;
    let name = match &code.mnemonic[1..end] {
        "I" => "ICS",
        name => name,
    };
    (name, code.mnemonic.ends_with('T'))
}

fn literal(code: &Code) -> &'static str {
    match code.top >> 4 {
        2 => "adds the literal to Ra",
        3 => "compares: Ra - literal sets the flags, no register is written",
        4 => "ANDs the literal into Ra",
        5 => "tests: Ra AND literal sets the flags, no register is written",
        _ => "loads Ra with the literal",
    }
}

fn register(code: &Code) -> String {
    let (a, b) = match code.pairs() {
        true => ("Ra's pair", "Rb's pair"),
        false => ("Ra", "Rb"),
    };
    let name = |letter: char| match letter {
        'A' => a.to_string(),
        'B' => b.to_string(),
        other => other.to_string(),
    };
    let words = REGISTERS[usize::from(code.top - 0x80) / 4].split(' ');
    // Only words that are the letter alone, before a mark or not, are names.
    let words = words.map(|word| match word.trim_end_matches(',') {
        "A" | "B" => word.chars().map(name).collect(),
        _ => word.to_string(),
    });
    words.collect::<Vec<String>>().join(" ")
}

fn input(code: &Code) -> &'static str {
    match code.top & 0xFE {
        0xE0 => {
            "takes the byte of DAL that b chooses to Ra, then lets the bus go unless b is 4-7, with CP1621B also then if Q1 is true"
        },
        0xE2 => {
            "takes DAL to Ra's pair, and by b to TR and G, then lets the bus go unless b is 4-7, with CP1621B also then if Q1 is true"
        }
        0xE4 => "takes the byte of DAL that b chooses to Ra, whatever REPLY and BUSY are",
        _ => "takes DAL to Ra's pair, whatever REPLY and BUSY are",
    }
}
