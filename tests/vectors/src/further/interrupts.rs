//! RI and SI.

use super::controls::word;
use crate::background::Background::{self, High, Low};
use crate::code::Code;
use crate::draft::Draft;

/// Name, b, what else is before, and what is changed.
const CHANGES: [(&str, u8, Background, &str); 6] = [
    ("ordinary", 5, Low, "I4 and I6 are"),
    ("other", 2, High, "I5 is"),
    ("i4", 1, Low, "I4 alone is"),
    ("i5", 2, Low, "I5 alone is"),
    ("i6", 4, Low, "I6 alone is"),
    ("all", 15, High, "I4, I5 and I6 are"),
];

/// Drafts for RI or SI.
pub fn drafts(code: &Code) -> Vec<Draft> {
    // As they are before, the code changes each that b names.
    let (before, does) = match code.mnemonic {
        "RI" => (7, "cleared"),
        _ => (0, "set"),
    };
    let with = |b: u8, a: u8, internal: u8, background: Background| {
        let mut setting = word(code, b, a, background);
        setting.state.internal = internal;
        setting
    };
    let changing = |&(name, b, background, which): &(&str, u8, Background, &str)| {
        let rest = match background {
            Low => "all else low before",
            High => "all else high before, and the flags stay",
        };
        let shows = format!("b is {b:X}: {which} {does}; {rest}.");
        Draft::executed(name, with(b, 0, before, background), shows)
    };
    let mut drafts: Vec<Draft> = CHANGES.iter().map(changing).collect();
    let edge = "b is 8: bit 3 does nothing; in the last word of all.";
    let edge = Draft::executed("edge", with(8, 0, before, Low).at(0x7FF), edge);
    drafts.insert(1, edge);
    let already = format!("b is 7: I4-I6 are {does} already and stay.");
    let already = Draft::executed("already", with(7, 0, 7 - before, Low), already);
    let ignored = "All bits of a are 1: they are not looked at.";
    let ignored = Draft::executed("dont-care", with(5, 15, before, Low), ignored);
    drafts.extend([already, ignored]);
    drafts
}
