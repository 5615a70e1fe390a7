//! The conditional jumps, 10-1F.

use super::jumps::{at, leading};
use crate::background::Background::{High, Low};
use crate::code::Code;
use crate::draft::{Claim, Draft};
use crate::meaning::tested;
use crate::setting::{Setting, LOAD_RR};
use compare::flags;

/// The target within its page, and an address besides the page's end.
const TARGET: u32 = 0x34;
const LC: u16 = 0x003;

/// The last address of page 1, and of all.
const PAGE_END: u16 = 0x1FF;
const LAST: u16 = 0x7FF;

/// A jump that is taken.
fn taken(code: &Code, name: &str, setting: Setting, shows: impl Into<String>) -> Draft {
    let setting = decided(code, true, setting);
    Draft::new(name, Claim::Taken, setting, shows)
}

/// A jump that is not.
fn passed(code: &Code, name: &str, setting: Setting, shows: impl Into<String>) -> Draft {
    let setting = decided(code, false, setting);
    Draft::new(name, Claim::NotTaken, setting, shows)
}

/// The setting with what the code tests such that it jumps, or not.
fn decided(code: &Code, taken: bool, mut setting: Setting) -> Setting {
    let (name, wanted) = tested(code);
    let (state, high) = (&mut setting.state, wanted == taken);
    match flags::bit(name) {
        Some(bit) => state.flags = state.flags & !bit | (u8::from(high) * bit),
        None => state.ics = high,
    }
    setting
}

/// All drafts of a conditional jump.
pub fn drafts(code: &Code) -> Vec<Draft> {
    [by_flags(code), by_address(code), by_bits(code)].concat()
}

fn by_flags(code: &Code) -> Vec<Draft> {
    let (name, wanted) = tested(code);
    let (is, not) = (u8::from(wanted), u8::from(!wanted));
    vec![
        taken(
            code,
            "ordinary",
            at(code, TARGET, LC, Low),
            format!("{name} is {is}: taken; the other flags and marks low before."),
        ),
        taken(
            code,
            "edge",
            at(code, 0x10, PAGE_END, Low),
            "Taken from the end of a page: LC keeps the page of its own address.",
        ),
        passed(
            code,
            "other",
            at(code, TARGET, LC, High),
            format!("{name} is {not}: not taken; the rest high before, and the flags stay."),
        ),
        taken(
            code,
            "one-flag",
            at(code, TARGET, LC, High),
            format!("{name} is {is} as in `ordinary`, all else the other way: still taken."),
        ),
    ]
}

fn by_address(code: &Code) -> Vec<Draft> {
    vec![
        passed(
            code,
            "page-end",
            at(code, 0x10, PAGE_END, Low),
            "Not taken from the end of a page: LC goes to the next page.",
        ),
        passed(
            code,
            "last-word",
            at(code, 0x10, LAST, High),
            "Not taken in the last word of all: LC goes round to the first.",
        ),
        taken(
            code,
            "rows",
            leading(at(code, TARGET, LC, Low), 0x123),
            "Taken while a row raises LTA: the jump wins.",
        ),
        passed(
            code,
            "rows-not-taken",
            leading(at(code, TARGET, LC, Low), 0x123),
            "Not taken while a row raises LTA: LC goes to the row's address.",
        ),
    ]
}

fn by_bits(code: &Code) -> Vec<Draft> {
    vec![
        taken(
            code,
            "bit-16",
            at(code, LOAD_RR | TARGET, LC, Low),
            "Taken, with bit 16: RR takes LC + 1.",
        ),
        passed(
            code,
            "bit-16-not-taken",
            at(code, LOAD_RR | TARGET, LC, Low),
            "Not taken, with bit 16: RR takes LC + 1 all the same.",
        ),
    ]
}
