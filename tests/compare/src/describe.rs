//! Instructions, samples, states and requests in readable form.

use crate::call::Left;
use crate::fields::{other_fields, register_fields, Field};
use crate::{flags, lines, listing};
use interpreter::STATE_BYTES;

/// What a request asks for, by its kind.
pub const KINDS: [&str; 13] = [
    "none",
    "read",
    "write",
    "read-acknowledge",
    "write-acknowledge",
    "data-in",
    "word-out",
    "byte-out",
    "status-out",
    "status-in",
    "wait",
    "reset",
    "compute-low",
];

/// The kind of what IB and IW take.
pub const DATA_IN: u32 = 5;

/// The kind of a wait. Kinds from here on are of attempts that executed nothing.
pub const WAIT: u32 = 10;

/// The kind of a RESET.
pub const RESET: u32 = 11;

/// A word's mnemonic and fields.
pub fn instruction(word: u32) -> String {
    let top = (word >> 8) as u8;
    let name = listing::mnemonic(top).unwrap_or("unlisted");
    let fields = match top {
        0x00..=0x07 => format!(" {:03X}", word & 0x7FF),
        0x08..=0x0F => String::new(),
        0x10..=0x1F => format!(" {:02X}", word & 0xFF),
        0x20..=0x6F => format!(" literal {:02X}, a {:X}", word >> 4 & 0xFF, word & 15),
        _ => format!(" b {:X}, a {:X}", word >> 4 & 15, word & 15),
    };
    let bits = (16..22).filter(|bit| word >> bit & 1 == 1);
    let bits: String = bits.map(|bit| format!(", bit {bit}")).collect();
    format!("{name}{fields}{bits}")
}

/// A sample's four bytes.
pub fn sample(&[low, high, high_lines, interrupts]: &[u8; 4]) -> String {
    let high_lines = lines::names(high_lines).join(" ");
    format!("data {high:02X}{low:02X} I0-I3 {interrupts:X} {high_lines}")
}

/// A request.
pub fn request(request: u32) -> String {
    match KINDS.get(request as usize >> 16) {
        Some(kind) => format!("{kind} {:04X}", request & 0xFFFF),
        None => format!("{request:08X}"),
    }
}

/// The fields of a state buffer by name, flags as one. A buffer of another length than a state has none.
pub fn fields(state: &[u8]) -> Vec<Field> {
    let named = |name: &str, value: String| (name.to_string(), value);
    let state = match <&[u8; STATE_BYTES]>::try_from(state) {
        Ok(state) => state,
        Err(_) => return vec![named("buffer", format!("{state:02X?}"))],
    };
    let flags = format!("{:02X} ({})", state[27], flags::names(state[27]));
    let unused = format!("{:X} {:X}", state[37] >> 4, state[38] >> 3);
    let rest = vec![
        named("flags", flags),
        named("unused bits of marks and I4-I6", unused),
    ];
    [register_fields(state), other_fields(state), rest].concat()
}

/// A state buffer in one line.
pub fn state(state: &[u8]) -> String {
    let fields = fields(state).into_iter();
    let fields: Vec<String> = fields
        .map(|(name, value)| format!("{name} {value}"))
        .collect();
    fields.join(", ")
}

/// What the driver found touched that may not be.
fn damage(bits: u32) -> String {
    let names = [
        "around the deck",
        "around the requests",
        "around the state",
        "the deck",
        "around the memory",
    ];
    let touched = (0..5).filter(|at| bits >> at & 1 == 1);
    let touched: Vec<&str> = touched.map(|at| names[at]).collect();
    match touched.is_empty() {
        true => "nothing".to_string(),
        false => touched.join(", "),
    }
}

/// The report by name.
fn report(left: &Left) -> Vec<Field> {
    let report = [
        ("answer", left.report.answer.to_string()),
        ("attempts", left.report.attempts.to_string()),
        ("microcycles", left.report.microcycles.to_string()),
        ("touched", damage(left.damage)),
    ];
    let report = report.map(|(name, value)| (name.to_string(), value));
    report.to_vec()
}

/// What is wrong with what was left behind, if anything.
pub fn wrong(expected: &Left, got: Option<&Left>) -> Option<String> {
    match got {
        Some(got) if got == expected => None,
        Some(got) => Some(differences(expected, got).join("; ")),
        None => Some("no answer".to_string()),
    }
}

/// What differs between two that were left behind, one to a line.
pub fn differences(expected: &Left, got: &Left) -> Vec<String> {
    let whole = |left: &Left| [report(left), places(left), fields(&left.state)].concat();
    let pairs = whole(expected).into_iter().zip(whole(got));
    let unlike = pairs.filter(|(expected, got)| expected != got);
    unlike
        .map(|((name, expected), (_, got))| format!("{name}: expected {expected}, got {got}"))
        .collect()
}

/// The places of a request buffer, and what is too short for one.
fn places(left: &Left) -> Vec<Field> {
    let places = left.requests.chunks(4).enumerate();
    let places = places.map(|(at, bytes)| {
        let value = match <[u8; 4]>::try_from(bytes) {
            Ok(bytes) => request(u32::from_le_bytes(bytes)),
            Err(_) => format!("{bytes:02X?}"),
        };
        (format!("place {at}"), value)
    });
    places.collect()
}
