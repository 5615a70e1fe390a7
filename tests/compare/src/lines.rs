//! The lines of a sample, as bits of its third byte.

/// REPLY.
pub const REPLY: u8 = 1;
/// BUSY.
pub const BUSY: u8 = 2;
/// COMPUTE.
pub const COMPUTE: u8 = 4;
/// RESET.
pub const RESET: u8 = 8;
/// ICS.
pub const ICS: u8 = 16;

/// Each with its name, in the order that texts have them.
const NAMED: [(u8, &str); 5] = [
    (COMPUTE, "COMPUTE"),
    (REPLY, "REPLY"),
    (BUSY, "BUSY"),
    (RESET, "RESET"),
    (ICS, "ICS"),
];

/// The names of those that are high.
pub fn names(lines: u8) -> Vec<&'static str> {
    let high = NAMED.iter().filter(|(line, _)| lines & line != 0);
    high.map(|&(_, name)| name).collect()
}

/// The line of a name.
pub fn line(name: &str) -> Option<u8> {
    let own = NAMED.iter().find(|(_, own)| *own == name)?;
    Some(own.0)
}
