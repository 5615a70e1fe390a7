//! Sets of flags, as bits of the flag byte.

/// The flags, high to low.
const FLAGS: [&str; 8] = ["N", "Z", "V", "C", "NB", "ZB", "C4", "C8"];

/// All eight.
pub const ALL: u8 = 0xFF;

/// V, the border of signed numbers.
pub const V: u8 = 0x20;

/// The names of a set, high to low.
pub fn names(set: u8) -> String {
    let own: Vec<&str> = each(set).map(name).collect();
    own.join(" ")
}

/// The flags of a set one by one, high to low.
pub fn each(set: u8) -> impl Iterator<Item = u8> {
    (0..8)
        .map(|at| 0x80 >> at)
        .filter(move |bit| set & bit != 0)
}

/// The name of one flag.
pub fn name(bit: u8) -> &'static str {
    FLAGS[bit.leading_zeros() as usize]
}

/// The bit of a name, when it is a flag's.
pub fn bit(name: &str) -> Option<u8> {
    let at = FLAGS.iter().position(|&own| own == name)?;
    Some(0x80 >> at)
}
