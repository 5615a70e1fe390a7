//! 70-77 but for RI and SI.

use super::rows;
use crate::background::Background::{self, High, Low};
use crate::code::Code;
use crate::draft::{low, Claim, Draft};
use crate::operands::Operands;
use crate::row::Row;
use crate::setting::Setting;
use interpreter::place;

/// The code's word with these designators.
pub fn word(code: &Code, b: u8, a: u8, background: Background) -> Setting {
    let operands = Operands {
        a,
        b,
        ..Operands::default()
    };
    operands.setting(code, background)
}

/// CCF with these flags.
fn copied(code: &Code, flags: u8, background: Background) -> Setting {
    let mut setting = word(code, 0, 2, background);
    setting.state.flags = flags;
    setting
}

/// CCF.
pub fn copying(code: &Code) -> Vec<Draft> {
    let mut drafts = vec![
        Draft::executed("ordinary", copied(code, 0x00, Low), "All flags low."),
        Draft::executed(
            "edge",
            copied(code, 0xA5, Low).at(0x7FF),
            "Every second flag high, in the last word of all.",
        ),
        Draft::executed(
            "other",
            copied(code, 0xFF, High),
            "All flags high, and they stay.",
        ),
        Draft::executed(
            "crossed",
            copied(code, 0x5A, High),
            "The flags the other way than in `edge`.",
        ),
    ];
    drafts.extend(copying_besides(code));
    drafts
}

/// CCF of half the flags, through G, and with bits that it does not look at.
fn copying_besides(code: &Code) -> Vec<Draft> {
    let mut through = word(code, 0, 1, Low);
    (through.state.g, through.state.flags) = (5, 0xA5);
    vec![
        Draft::executed(
            "condition",
            copied(code, 0xF0, Low),
            "N Z V C alone: the upper digit.",
        ),
        Draft::executed(
            "status",
            copied(code, 0x0F, Low),
            "NB ZB C4 C8 alone: the lower digit.",
        ),
        Draft::executed("through-g", through, "G is 5: a 1 is GB."),
        Draft::executed(
            "dont-care",
            copied(code, 0xA5, Low).with_bits(0xF0),
            "All bits of b are 1: CCF does not look at them.",
        ),
    ]
}

/// RTSR.
pub fn clearing(code: &Code) -> Vec<Draft> {
    let with = |tsr: u8, background: Background| {
        let mut setting = word(code, 0, 0, background);
        setting.state.tsr = tsr;
        setting
    };
    let over = with(5, Low).with_row(Row::at(0).ltsr(6));
    let edge = with(7, Low).at(0x7FF);
    let own = |name: &str, setting: Setting, shows: &str| Draft::executed(name, setting, shows);
    let mut drafts = vec![
        own("ordinary", with(5, Low), "TSR is 5 before, all else low."),
        own("edge", edge, "TSR is 7 before, in the last word of all."),
        own(
            "other",
            with(2, High),
            "TSR is 2 before, all else high; the flags stay.",
        ),
        own("already", with(0, High), "TSR is 0 before and stays."),
        own("over-ltsr", over, "A row raises LTSR with 6: RTSR wins."),
        own(
            "dont-care",
            with(5, Low).with_bits(0xFF),
            "All bits of a and b are 1: RTSR does not look at them.",
        ),
    ];
    drafts.extend(rows::clearing(code));
    drafts
}

/// LGL with this G before and this Ra.
fn loaded(code: &Code, a: u8, g: u8, ra: u8, background: Background) -> Setting {
    let mut setting = word(code, 0, a, background);
    setting.state.g = g;
    setting.state.registers[place(a, g)] = ra;
    setting
}

/// LGL.
pub fn loading_g(code: &Code) -> Vec<Draft> {
    let ordinary = loaded(code, 2, 0, 0x35, Low);
    let ignored = ordinary.clone().with_bits(0xF0);
    vec![
        Draft::executed("ordinary", ordinary, "Ra 35; flags and marks low before."),
        Draft::executed(
            "edge",
            loaded(code, 2, 0, 0xFF, Low).at(0x7FF),
            "Ra FF: the highest G, in the last word of all.",
        ),
        Draft::executed(
            "other",
            loaded(code, 2, 7, 0xCA, High),
            "Ra CA; all else high before, and the flags stay.",
        ),
        Draft::executed(
            "upper-bits",
            loaded(code, 2, 3, 0xF8, Low),
            "Ra F8: bits 7-3 do not count.",
        ),
        Draft::executed(
            "through-g",
            loaded(code, 1, 6, 0x02, Low),
            "G is 6: a 1 is RD, by G before the attempt.",
        ),
        Draft::executed(
            "dont-care",
            ignored,
            "All bits of b are 1: LGL does not look at them.",
        ),
    ]
}

/// LCF: masks of one flag and of none. CIB, CDB: b is don't-care.
pub fn single(code: &Code, ordinary: &Operands) -> Vec<Draft> {
    if code.mnemonic != "LCF" {
        let ignored = low(code, ordinary).with_bits(0xF0);
        let shows = "All bits of b are 1: they are not looked at.";
        return vec![Draft::executed("dont-care", ignored, shows)];
    }
    let with = |b: u8| {
        let operands = Operands {
            b,
            p: Some(0xFF),
            ..ordinary.clone()
        };
        low(code, &operands)
    };
    let masks = [("N", 8), ("Z", 4), ("V", 2), ("C", 1)];
    let mut drafts: Vec<Draft> = masks
        .iter()
        .map(|&(flag, b)| {
            let name = format!("only-{}", flag.to_lowercase());
            let shows = format!("b is {b}, Ra FF: {flag} alone is loaded.");
            Draft::executed(&name, with(b), shows)
        })
        .collect();
    let shows = "b is 0, Ra FF: no flag is loaded.";
    drafts.push(Draft::new("none", Claim::Failed, with(0), shows));
    drafts
}
