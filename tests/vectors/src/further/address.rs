//! Codes on Rb:Ra: MI, LTR and the accesses; and waiting, which inputs share.

use crate::code::Code;
use crate::draft::{high, low, Claim, Draft};
use crate::operands::Operands;
use compare::lines::{BUSY, REPLY};
use compare::listing::Waits;

/// LL of 00 to R2, with the outputs 5.
const LOAD: u32 = 0x14_6002;

/// Drafts for a code on Rb:Ra.
pub fn drafts(code: &Code, ordinary: &Operands) -> Vec<Draft> {
    let mut drafts = vec![no_pair(code, ordinary), same_register(code, ordinary)];
    if code.mnemonic == "MI" {
        drafts.push(next_word(code));
    }
    drafts.extend(waits(code, ordinary));
    drafts
}

/// Rb:Ra are two registers that make no pair.
fn no_pair(code: &Code, ordinary: &Operands) -> Draft {
    let operands = Operands {
        a: 7,
        b: 4,
        ..ordinary.clone()
    };
    let shows = "a is 7 and b is 4: Rb:Ra are these two registers, and no pair.";
    Draft::executed("no-pair", low(code, &operands), shows)
}

/// Rb and Ra are one register.
fn same_register(code: &Code, ordinary: &Operands) -> Draft {
    let gains = matches!(code.top, 0xF0..=0xF7);
    let byte = ordinary.p.map_or(0, |p| p & 0xFF);
    let byte = if gains { 0xFF } else { byte };
    let operands = Operands {
        b: ordinary.a,
        p: Some(byte * 0x101),
        ..ordinary.clone()
    };
    let shows = match code.top {
        0xF2 | 0xF3 | 0xF6 | 0xF7 => "a and b are the same: Rb is read after Ra was written.",
        _ => "a and b are the same: one register is both bytes of Rb:Ra.",
    };
    Draft::executed("same-register", low(code, &operands), shows)
}

/// MI and the word that it modifies.
fn next_word(code: &Code) -> Draft {
    let operands = Operands {
        a: 2,
        b: 3,
        p: Some(0x05A0),
        ..Operands::default()
    };
    let mut setting = low(code, &operands);
    setting.words.push(LOAD);
    let sample = setting.samples[0];
    Draft::executed(
        "next-word",
        setting.after(sample),
        "Rb:Ra is ORed into the next word, an LL of 00, and gives it another literal.",
    )
}

/// A wait for each way to wait, then the word; and a wait alone.
pub fn waits(code: &Code, ordinary: &Operands) -> Vec<Draft> {
    let then = |name: &str, down: u8, up: u8, why: &str| {
        let setting = low(code, ordinary);
        let waiting = setting.samples[0].with(down, up);
        let shows = format!("Waits once while {why}, then the word is executed.");
        Draft::new(name, Claim::Waits, setting.after(waiting), shows)
    };
    let mut drafts = match code.waits() {
        Waits::Never => return Vec::new(),
        Waits::Occupied => vec![
            then("wait-busy", 0, BUSY, "BUSY is high"),
            then("wait-reply", 0, REPLY, "REPLY is high"),
        ],
        Waits::Unanswered => vec![then("wait-reply", REPLY, 0, "REPLY is low")],
    };
    let mut alone = high(code, ordinary);
    alone.samples[0] = match code.waits() {
        Waits::Occupied => alone.samples[0].with(0, REPLY | BUSY),
        _ => alone.samples[0].with(REPLY, BUSY),
    };
    drafts.push(Draft::new(
        "wait-only",
        Claim::Still,
        alone,
        "A wait alone: nothing changes, and the modification still waits.",
    ));
    drafts
}
