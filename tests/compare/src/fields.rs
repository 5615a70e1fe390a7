//! The bytes of a state by names and values, as the texts have them.

use interpreter::STATE_BYTES;

/// What stands for a modification that is not waiting.
pub const NONE: &str = "none";

/// A name and its value, hexadecimal.
pub type Field = (String, String);

/// The names of the registers, by their place in the file: G0-GB, R2-RF.
pub fn registers() -> Vec<String> {
    let general = (0..12).map(|at| format!("G{at:X}"));
    general
        .chain((2..16).map(|at| format!("R{at:X}")))
        .collect()
}

/// The registers.
pub fn register_fields(state: &[u8; STATE_BYTES]) -> Vec<Field> {
    let values = state.iter().map(|value| format!("{value:02X}"));
    registers().into_iter().zip(values).collect()
}

/// All but registers and flags.
pub fn other_fields(state: &[u8; STATE_BYTES]) -> Vec<Field> {
    let number = |at: usize| u16::from_le_bytes([state[at], state[at + 1]]);
    let bit = |at: usize, bit: u8| (state[at] >> bit & 1).to_string();
    let modification = match (state[37] & 8, number(39)) {
        (0, 0) => NONE.to_string(),
        (0, bits) => format!("{bits:04X} without its mark"),
        (_, bits) => format!("{bits:04X}"),
    };
    let fields = [
        ("G", state[26].to_string()),
        ("LC", format!("{:03X}", number(28))),
        ("RR", format!("{:03X}", number(30))),
        ("TR", format!("{:04X}", number(32))),
        ("M", format!("{:04X}", number(34))),
        ("TSR", state[36].to_string()),
        ("ICS", bit(37, 0)),
        ("SYNC", bit(37, 1)),
        ("IACK", bit(37, 2)),
        ("I4", bit(38, 0)),
        ("I5", bit(38, 1)),
        ("I6", bit(38, 2)),
        ("modification", modification),
        ("outputs", format!("{:X}", state[41])),
    ];
    let fields = fields.map(|(name, value)| (name.to_string(), value));
    fields.to_vec()
}
