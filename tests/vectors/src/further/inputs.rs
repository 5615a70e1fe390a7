//! IB, IW, ISB, ISW: options, waiting, and options that are not listed.

use super::address::waits;
use super::markings;
use crate::code::{Code, Format};
use crate::draft::{low, Claim, Draft};
use crate::operands::Operands;
use crate::setting::Setting;
use compare::lines::ICS;

/// Drafts for an input code.
pub fn drafts(code: &Code, ordinary: &Operands) -> Vec<Draft> {
    let mut drafts = Vec::new();
    let status = code.top & 4 != 0;
    match (status, code.format) {
        (true, Format::InputWord) => drafts.push(dont_care(code, ordinary)),
        (true, _) => {
            drafts.extend((0..4).flat_map(|option| bytes(code, ordinary, option)));
            drafts.extend(unlisted(code, ordinary, 4));
        }
        (false, Format::InputWord) => {
            drafts.extend((0..8).map(|option| word(code, option)));
            drafts.extend(markings::drafts(code, ordinary));
            drafts.extend(unlisted(code, ordinary, 8));
            drafts.push(odd_and_unlisted(code, ordinary));
        }
        (false, _) => {
            drafts.extend((0..8).flat_map(|option| bytes(code, ordinary, option)));
            drafts.extend(markings::drafts(code, ordinary));
            drafts.extend(unlisted(code, ordinary, 8));
        }
    }
    drafts.extend(waits(code, ordinary));
    drafts
}

/// The setting of an option: the bus is held and the sample's ICS high.
pub fn option(code: &Code, operands: &Operands, option: u8) -> Setting {
    let operands = Operands {
        b: option,
        ..operands.clone()
    };
    let mut setting = low(code, &operands);
    setting.state.sync = true;
    setting.state.iack = true;
    setting.samples[0] = setting.samples[0].with(0, ICS);
    setting
}

/// What an option says of SYNC and IACK.
fn bus(code: &Code, option: u8) -> &'static str {
    match (code.top & 4 != 0, option & 4 != 0) {
        (true, _) => "SYNC and IACK stay",
        (false, true) => "read-modify-write, SYNC and IACK stay",
        (false, false) => "SYNC and IACK fall",
    }
}

/// An option of IB and ISB, with M even and odd where M matters.
fn bytes(code: &Code, ordinary: &Operands, at: u8) -> Vec<Draft> {
    let draft = |name: String, m: u16, byte: &str| {
        let mut setting = option(code, ordinary, at);
        setting.state.m = m;
        let shows = format!("Option {at}: {byte}; {}.", bus(code, at));
        Draft::executed(&name, setting, shows)
    };
    let by_m = |when: &str| {
        vec![
            draft(
                format!("option-{at}"),
                0xFFFE,
                &format!("the {when} byte if M bit 0 is 1, and it is 0"),
            ),
            draft(
                format!("option-{at}-odd"),
                0x0001,
                &format!("the {when} byte if M bit 0 is 1, and it is 1"),
            ),
        ]
    };
    match at & 3 {
        0 => vec![draft(format!("option-{at}"), 0, "the upper byte")],
        1 => vec![draft(format!("option-{at}"), 0, "the lower byte")],
        2 => by_m("upper"),
        _ => by_m("lower"),
    }
}

/// An option of IW. Bits 6-4 and 8-6 of the data differ, so that G tells where it came from.
fn word(code: &Code, at: u8) -> Draft {
    let operands = Operands {
        a: 2,
        data: Some(0x4763),
        ..Operands::default()
    };
    let loads = match at & 3 {
        0 => "loads neither TR nor ICS nor G",
        1 => "loads TR and ICS, and G from DAL 6-4",
        2 => "loads TR and ICS, and G from DAL 8-6",
        _ => "loads TR and ICS, but not G",
    };
    Draft::executed(
        &format!("option-{at}"),
        option(code, &operands, at),
        format!("Option {at}: {loads}; {}.", bus(code, at)),
    )
}

/// The first option that is not listed, and the last.
fn unlisted(code: &Code, ordinary: &Operands, first: u8) -> Vec<Draft> {
    let refused = |at: u8| {
        Draft::new(
            &format!("option-{at:x}"),
            Claim::Refused(8),
            option(code, ordinary, at),
            format!("Option {at:X} is not listed: refused with 8."),
        )
    };
    vec![refused(first), refused(15)]
}

/// An odd pair changes nothing of that.
fn odd_and_unlisted(code: &Code, ordinary: &Operands) -> Draft {
    Draft::new(
        "odd-a-option-8",
        Claim::Refused(8),
        option(code, ordinary, 8).with_bits(1),
        "a is odd, and option 8 is not listed: refused with 8.",
    )
}

fn dont_care(code: &Code, ordinary: &Operands) -> Draft {
    Draft::executed(
        "dont-care",
        option(code, ordinary, 15),
        "All bits of b are 1: ISW does not look at them.",
    )
}
