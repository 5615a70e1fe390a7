//! The 150 listed instructions of manual 5.3.2 as 01 corrects them, told apart by the top byte.

/// 10-1F.
const JUMPS: [&str; 16] = [
    "JZBF", "JZBT", "JC8F", "JC8T", "JIF", "JIT", "JNBF", "JNBT", "JZF", "JZT", "JCF", "JCT",
    "JVF", "JVT", "JNF", "JNT",
];

/// 2-6 in the top digit.
const LITERALS: [&str; 5] = ["AL", "CL", "NL", "TL", "LL"];

/// 70-77.
const CONTROLS: [&str; 8] = ["RI", "SI", "CCF", "LCF", "RTSR", "LGL", "CIB", "CDB"];

/// 80-E7, four codes to an entry: byte even and odd, word even and odd.
const REGISTERS: [[&str; 2]; 26] = [
    ["MB", "MW"],
    ["CMB", "CMW"],
    ["SLBC", "SLWC"],
    ["SLB", "SLW"],
    ["ICB1", "ICW1"],
    ["ICB2", "ICW2"],
    ["TCB", "TCW"],
    ["OCB", "OCW"],
    ["AB", "AW"],
    ["CAB", "CAW"],
    ["ABC", "AWC"],
    ["CAD", "CAWI"],
    ["SB", "SW"],
    ["CB", "CW"],
    ["SBC", "SWC"],
    ["DB1", "DW1"],
    ["NB", "NW"],
    ["TB", "TW"],
    ["ORB", "ORW"],
    ["XB", "XW"],
    ["NCB", "NCW"],
    ["", ""],
    ["SRBC", "SRWC"],
    ["SRB", "SRW"],
    ["IB", "IW"],
    ["ISB", "ISW"],
];

/// F0-FF.
const ACCESSES: [&str; 16] = [
    "RIB1", "WIB1", "RIW1", "WIW1", "RIB2", "WIB2", "RIW2", "WIW2", "R", "W", "RA", "WA", "OB",
    "OW", "OS", "NOP",
];

/// The mnemonic of a top byte, or nothing when it is unlisted.
pub fn mnemonic(top: u8) -> Option<&'static str> {
    let at = usize::from(top);
    let name = match top {
        0x00..=0x07 => "JMP",
        0x08..=0x0F => "RFS",
        0x10..=0x1F => JUMPS[at - 0x10],
        0x20..=0x6F => LITERALS[at / 16 - 2],
        0x70..=0x77 => CONTROLS[at - 0x70],
        0x78..=0x7F | 0xAD | 0xD4..=0xD7 | 0xE8..=0xEB => return None,
        0x80..=0xE7 => REGISTERS[(at - 0x80) / 4][at / 2 % 2],
        0xEC | 0xED => "MI",
        0xEE | 0xEF => "LTR",
        0xF0..=0xFF => ACCESSES[at - 0xF0],
    };
    Some(name)
}

/// The instruction of a top byte, as `B6-CW`, or nothing when it is unlisted. Top bytes that only
/// tell jump addresses or literals apart have the key of the first.
pub fn key(top: u8) -> Option<String> {
    let first = match top {
        0x00..=0x0F => top & 0xF8,
        0x20..=0x6F => top & 0xF0,
        _ => top,
    };
    mnemonic(top).map(|name| format!("{first:02X}-{name}"))
}

/// The keys of the 150 listed instructions, in the order of their codes.
pub fn keys() -> Vec<String> {
    let mut keys: Vec<String> = (0..=255).filter_map(key).collect();
    keys.dedup();
    keys
}

/// Listed but left out: CAD, always refused.
pub const LEFT_OUT: &str = "AC-CAD";

/// The key of any top byte: an unlisted one has its own, as `78-unlisted`.
pub fn any_key(top: u8) -> String {
    key(top).unwrap_or_else(|| format!("{top:02X}-unlisted"))
}

/// Whether a code works on the pairs of a and b: the listed two-cycle codes 82-DF.
pub fn pairs(top: u8) -> bool {
    matches!(top, 0x82..=0xDF) && top & 2 != 0 && mnemonic(top).is_some()
}

/// When a code waits.
#[derive(Clone, Copy, PartialEq, Eq)]
pub enum Waits {
    /// Never.
    Never,
    /// While REPLY or BUSY is high.
    Occupied,
    /// While REPLY is low.
    Unanswered,
}

/// When the code of a top byte waits.
pub fn waits(top: u8) -> Waits {
    match top {
        0xF0..=0xFB => Waits::Occupied,
        0xE0..=0xE3 | 0xFC | 0xFD => Waits::Unanswered,
        _ => Waits::Never,
    }
}
