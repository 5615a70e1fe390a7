//! NOP, where nothing hides what every word does: bits 16-21, rows, RESET and COMPUTE.

use super::jumps::at;
use super::rows;
use crate::background::Background::{High, Low};
use crate::code::Code;
use crate::draft::{Claim, Draft};
use crate::row::{Part, Row};
use crate::setting::{Setting, LOAD_RR, RNI};
use compare::lines::{COMPUTE, RESET};

/// NOP.
pub fn nothing(code: &Code) -> Vec<Draft> {
    let mut drafts = vec![
        Draft::executed(
            "ordinary",
            at(code, 0, 0, Low),
            "All low before: LC goes on by one.",
        ),
        Draft::executed(
            "edge",
            at(code, 0, 0x7FF, Low),
            "The last word of all: LC goes round to the first.",
        ),
        Draft::executed(
            "other",
            at(code, 0, 0x010, High),
            "All high before: the flags stay, the modification is used up.",
        ),
        Draft::executed(
            "dont-care",
            at(code, 0xFF, 0, Low),
            "All bits of a and b are 1: NOP does not look at them.",
        ),
    ];
    drafts.extend(by_bits(code));
    drafts.extend(by_output(code));
    drafts.extend(by_rows(at(code, 0, 5, Low)));
    drafts.extend(rows::drafts(code));
    drafts.extend(not_fetched(&at(code, 0, 0x010, High)));
    drafts
}

fn by_bits(code: &Code) -> Vec<Draft> {
    vec![
        Draft::executed(
            "bit-16",
            at(code, LOAD_RR, 5, Low),
            "Bit 16 loads RR with LC + 1.",
        ),
        Draft::executed(
            "bit-16-last",
            at(code, LOAD_RR, 0x7FF, High),
            "Bit 16 in the last word of all: RR goes round to the first.",
        ),
        Draft::executed(
            "user-outputs",
            outputs(code, 0x5),
            "Bits 18-21 are the user's outputs: each takes its bit, whatever it was before.",
        ),
    ]
}

/// The word that loads these outputs, each being the other before.
fn outputs(code: &Code, outputs: u8) -> Setting {
    let mut state = Low.state();
    state.outputs = !outputs & 15;
    Setting::single(u32::from(code.top) << 8, state, Low.sample(code))
}

/// Each of the user's outputs alone.
fn by_output(code: &Code) -> [Draft; 4] {
    [18, 19, 20, 21].map(|bit| {
        let shows = format!("Bit {bit} alone is 1: its output goes up, the other three go down.");
        Draft::executed(&format!("bit-{bit}"), outputs(code, 1 << (bit - 18)), shows)
    })
}

/// What rows make of the next LC, and of TSR.
fn by_rows(mut setting: Setting) -> Vec<Draft> {
    setting.state.rr = 0x456;
    let row = Row::at(setting.state.lc);
    let asked = row.asking(Part::Rni, 1, 1).lta(0x123);
    let own = |name: &str, bits: u32, rows: &[Row], shows: &str| {
        let with = setting.clone().with_bits(bits);
        let with = rows.iter().fold(with, |with, &row| with.with_row(row));
        Draft::executed(name, with, shows)
    };
    let taken = "Bit 17 is 1, as the row asks: LTA gives its address to LC.";
    let passed = "Bit 17 is 0, and the row asks for 1: LC goes on by one.";
    let back = "LRA wins over LTA, and LC takes RR as it was before bit 16 changed it.";
    let loaded = "A row raises LTSR: TSR takes its new TSR.";
    vec![
        own("bit-17", RNI, &[asked], taken),
        own("bit-17-low", 0, &[asked], passed),
        own("lra", LOAD_RR, &[row.lta(0x123), row.lra()], back),
        own("ltsr", 0, &[row.ltsr(6)], loaded),
    ]
}

/// RESET, and COMPUTE low.
pub fn not_fetched(setting: &Setting) -> Vec<Draft> {
    let with = |low: u8, high: u8| {
        let mut own = setting.clone();
        own.samples[0] = own.samples[0].with(low, high);
        own
    };
    let stopped = "COMPUTE is low: no word is fetched and nothing changes.";
    let reset =
        "RESET wins over COMPUTE low: LC is set, SYNC, IACK and modification go, outputs stay.";
    vec![
        Draft::new("compute-low", Claim::Still, with(COMPUTE, 0), stopped),
        Draft::new("reset", Claim::Reset, with(COMPUTE, RESET), reset),
    ]
}
