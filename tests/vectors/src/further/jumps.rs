//! JMP and RFS.

use crate::background::Background::{self, High, Low};
use crate::code::Code;
use crate::draft::{Claim, Draft};
use crate::row::Row;
use crate::setting::{Setting, LOAD_RR};

/// The code's word with these bits, at this LC.
pub fn at(code: &Code, bits: u32, lc: u16, background: Background) -> Setting {
    let word = u32::from(code.top) << 8 | bits;
    Setting::single(word, background.state(), background.sample(code)).at(lc)
}

/// The setting with a row that matches its word and gives an address.
pub fn leading(setting: Setting, address: u16) -> Setting {
    let lc = setting.state.lc;
    setting.with_row(Row::at(lc).lta(address))
}

/// JMP.
pub fn jump(code: &Code) -> Vec<Draft> {
    let taken =
        |name: &str, setting: Setting, shows: &str| Draft::new(name, Claim::Taken, setting, shows);
    let mut drafts = vec![
        taken(
            "ordinary",
            at(code, 0x234, 3, Low),
            "To address 234; flags and marks low before.",
        ),
        taken(
            "edge",
            at(code, 0x7FF, 0x7FF, Low),
            "The highest address, from the last word of all: to itself.",
        ),
        taken(
            "other",
            at(code, 0x5CB, 3, High),
            "To address 5CB; flags, marks and lines high before, and the flags stay.",
        ),
        taken(
            "lowest",
            at(code, 0x000, 0x7FF, High),
            "The lowest address, from the last word of all.",
        ),
    ];
    drafts.extend(jump_besides(code));
    drafts
}

/// JMP with bit 16, rows and a modification.
fn jump_besides(code: &Code) -> Vec<Draft> {
    let taken =
        |name: &str, setting: Setting, shows: &str| Draft::new(name, Claim::Taken, setting, shows);
    let rows = leading(at(code, 0x234, 3, High), 0x123).with_row(Row::at(3).lra());
    let mut modified = at(code, 0x000, 3, Low);
    modified.state.modification = Some(0x234);
    vec![
        taken(
            "bit-16",
            at(code, LOAD_RR | 0x234, 3, Low),
            "Bit 16 loads RR with LC + 1, the way back.",
        ),
        taken(
            "bit-16-last",
            at(code, LOAD_RR | 0x234, 0x7FF, High),
            "Bit 16 in the last word of all: RR goes round to the first.",
        ),
        taken(
            "rows",
            rows,
            "Rows raise LTA and LRA: the jump goes to its own address all the same.",
        ),
        taken(
            "modified",
            modified,
            "A waiting modification gives the address; it is used up.",
        ),
    ]
}

/// RFS with this RR.
fn returned(code: &Code, rr: u16, bits: u32, lc: u16, background: Background) -> Setting {
    let mut setting = at(code, bits, lc, background);
    setting.state.rr = rr;
    setting
}

/// RFS.
pub fn returning(code: &Code) -> Vec<Draft> {
    let mut drafts = vec![
        Draft::executed(
            "ordinary",
            returned(code, 0x123, 0, 3, Low),
            "To 123, which is in RR; flags and marks low before.",
        ),
        Draft::executed(
            "edge",
            returned(code, 0x7FF, 0, 0x7FF, Low),
            "To the highest address, from the last word of all: to itself.",
        ),
        Draft::executed(
            "other",
            returned(code, 0x5CB, 0, 3, High),
            "To 5CB; flags, marks and lines high before, and the flags stay.",
        ),
        Draft::executed(
            "lowest",
            returned(code, 0x000, 0, 3, High),
            "To the lowest address, 000.",
        ),
    ];
    drafts.extend(returning_besides(code));
    drafts
}

/// RFS with bit 16, rows and bits that it does not look at.
fn returning_besides(code: &Code) -> Vec<Draft> {
    vec![
        Draft::executed(
            "bit-16",
            returned(code, 0x009, LOAD_RR, 5, Low),
            "Bit 16: LC takes RR as it was before, then RR takes LC + 1.",
        ),
        Draft::executed(
            "dont-care",
            returned(code, 0x123, 0x7FF, 3, Low),
            "Bits 10-0 are all 1: RFS does not look at them.",
        ),
        Draft::executed(
            "rows",
            leading(returned(code, 0x123, 0, 3, Low), 0x234),
            "A row raises LTA: RFS goes to RR all the same.",
        ),
    ]
}
