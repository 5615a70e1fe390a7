//! CAD and the unlisted codes, which are refused with 6.

use super::bits::not_fetched;
use super::jumps::at;
use crate::background::Background::{High, Low};
use crate::code::Code;
use crate::draft::{Claim, Draft};
use crate::setting::Setting;

/// NOP with the outputs 5.
const NOP: u32 = 0x14_FF00;

/// Drafts for a code that is always refused.
pub fn drafts(code: &Code) -> Vec<Draft> {
    let refused = |name: &str, setting: Setting, shows: &str| {
        Draft::new(name, Claim::Refused(6), setting, shows)
    };
    let high = "All high before: the state stays, and the modification still waits.";
    let mut drafts = vec![
        refused(
            "ordinary",
            at(code, 0x22, 0, Low),
            "Refused at the first attempt; flags and marks low before.",
        ),
        refused(
            "edge",
            at(code, 0x3F_00FF, 0x7FF, Low),
            "All other bits of the word are 1, in the last word of all.",
        ),
        refused("other", at(code, 0x32, 0x010, High), high),
        refused(
            "second",
            second(code),
            "A NOP first: its attempt, its cost, its place and its outputs count, then the refusal.",
        ),
        refused(
            "modified",
            modified(code),
            "A waiting modification makes the code out of a JMP: refused, and it still waits.",
        ),
    ];
    drafts.extend(not_fetched(&at(code, 0x22, 0x010, High)));
    drafts
}

/// The code's word after a NOP.
fn second(code: &Code) -> Setting {
    let setting = at(code, 0x22, 1, Low);
    let (sample, mut state) = (setting.samples[0], setting.state.clone());
    state.lc = 0;
    Setting {
        words: vec![NOP, setting.stored()],
        state,
        ..setting
    }
    .after(sample)
}

/// A JMP that a modification makes the code's word.
fn modified(code: &Code) -> Setting {
    let mut state = Low.state();
    state.modification = Some(u16::from(code.top) << 8);
    Setting::single(0x0022, state, Low.sample(code))
}
