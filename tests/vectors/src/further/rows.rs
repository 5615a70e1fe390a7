//! NOP and RTSR under rows: each mask, and what the matching rows give together.

use super::jumps::at;
use crate::background::Background::Low;
use crate::code::Code;
use crate::draft::{Claim, Draft};
use crate::row::{Part, Row};
use crate::setting::{Setting, RNI};

/// Where the word lies, and what is in RR.
const LC: u16 = 0x005;
const RR: u16 = 0x456;

/// What a part is, as far as it has bits. Turned it is the other: each bit is seen both ways.
const PATTERN: u16 = 0x2C5;

/// The new TSR of the row that must match; in no setting is it the TSR before.
const NEW_TSR: u8 = 3;

/// Addresses of a row that asks for a 1 and of one that asks for a 0: together they are neither.
const IF_1: u16 = 0x101;
const IF_0: u16 = 0x202;

/// Name, part, TSR before but for what the part says, and what its value is told with.
const PARTS: [(&str, Part, u8, &str); 6] = [
    ("rows-lc", Part::Lc, 0, "LC is"),
    (
        "rows-tr-upper",
        Part::Tr,
        0,
        "TSR bit 2 is 0: TR's upper byte counts, and is",
    ),
    (
        "rows-tr-lower",
        Part::Tr,
        4,
        "TSR bit 2 is 1: TR's lower byte counts, and is",
    ),
    ("rows-tsr", Part::Tsr, 0, "TSR bits 1-0 are"),
    (
        "rows-tsr-bit-2",
        Part::Tsr,
        4,
        "TSR bit 2 is 1 and does not count, bits 1-0 are",
    ),
    ("rows-i", Part::Interrupts, 0, "I6-I0 are, as a number,"),
];

/// The word under rows.
fn setting(code: &Code) -> Setting {
    let mut setting = at(code, 0, LC, Low);
    setting.state.rr = RR;
    setting
}

/// A draft whose rows lead to this LC and this TSR.
fn led(name: &str, setting: Setting, rows: &[Row], to: (u16, u8), shows: &str) -> Draft {
    let with = rows.iter().fold(setting, |with, &row| with.with_row(row));
    let claim = Claim::Led {
        lc: to.0,
        tsr: to.1,
    };
    Draft::new(name, claim, with, shows)
}

/// Drafts of NOP.
pub fn drafts(code: &Code) -> Vec<Draft> {
    let setting = setting(code);
    let mut drafts: Vec<Draft> = PARTS
        .iter()
        .flat_map(|&(name, part, tsr, is)| by_part(&setting, name, part, tsr, is))
        .collect();
    drafts.extend((0..7).flat_map(|line| interrupt(&setting, line)));
    drafts.extend(bit_17(&setting));
    drafts.extend([every_mask(&setting), no_mask(&setting)]);
    drafts.extend(outputs(&setting));
    drafts.extend(together(&setting));
    drafts
}

/// All bits of a part together, and each alone.
fn by_part(setting: &Setting, name: &str, part: Part, tsr: u8, is: &str) -> Vec<Draft> {
    let mut before = setting.clone();
    before.state.tsr = tsr;
    let both = [("", PATTERN), ("-turned", !PATTERN)].map(|(turned, value)| {
        let value = value & part.whole();
        let with = with_part(before.clone(), part, value);
        let is = format!("{is} {value:X}");
        let (whole, apart) = (format!("{name}{turned}"), format!("{name}-bits{turned}"));
        [
            near(&whole, &with, part, value, &is),
            bits(&apart, &with, part, value, &is),
        ]
    });
    both.concat()
}

/// The setting with this value of a part, the other byte of TR being turned.
fn with_part(mut setting: Setting, part: Part, value: u16) -> Setting {
    let byte = value as u8;
    match part {
        Part::Lc => return setting.at(value),
        Part::Rni => return setting.with_bits(u32::from(value) * RNI),
        Part::Tr if setting.state.tsr & 4 == 0 => {
            setting.state.tr = u16::from_be_bytes([byte, !byte])
        }
        Part::Tr => setting.state.tr = u16::from_be_bytes([!byte, byte]),
        Part::Tsr => setting.state.tsr |= byte,
        Part::Interrupts => {
            setting.samples[0].interrupts = byte & 15;
            setting.state.internal = byte >> 4;
        }
    }
    setting
}

/// The bits of a part, one by one.
fn each_bit(part: Part) -> impl Iterator<Item = u16> {
    let bits = (0..16).map(|at| 1 << at);
    bits.filter(move |bit| part.whole() & bit != 0)
}

/// A row that matches, and for each bit one that this bit alone keeps from matching.
fn near(name: &str, setting: &Setting, part: Part, value: u16, is: &str) -> Draft {
    let row = Row::at(setting.state.lc);
    let asking = |value: u16| row.asking(part, part.whole(), value);
    let mut rows = vec![asking(value).lta(0).ltsr(NEW_TSR)];
    rows.extend(each_bit(part).map(|bit| asking(value ^ bit).lta(bit)));
    let shows = format!("{is}. The first row matches; one bit keeps each other from it.");
    led(name, setting.clone(), &rows, (0, NEW_TSR), &shows)
}

/// For each bit a row that asks for it alone and gives LC the same bit.
fn bits(name: &str, setting: &Setting, part: Part, value: u16, is: &str) -> Draft {
    // LC would stay if its rows asked for ones.
    let ones = part != Part::Lc;
    let asked = if ones { part.whole() } else { 0 };
    let row = Row::at(setting.state.lc);
    let asking = |bit: u16| row.asking(part, bit, asked & bit).lta(bit);
    let rows: Vec<Row> = each_bit(part).map(asking).collect();
    let lc = !(value ^ asked) & part.whole();
    let digit = u8::from(ones);
    let shows = format!("{is}. Each row asks for one bit alone to be {digit} and gives it to LC.");
    let to = (lc, setting.state.tsr);
    led(name, setting.clone(), &rows, to, &shows)
}

/// A row that asks for a bit to be 1 and one that asks for 0: the bit decides.
fn either(name: &str, setting: Setting, part: Part, bit: u16, high: bool, shows: &str) -> Draft {
    let row = Row::at(LC);
    let rows = [
        row.asking(part, bit, bit).lta(IF_1),
        row.asking(part, bit, 0).lta(IF_0),
    ];
    let lc = if high { IF_1 } else { IF_0 };
    let tsr = setting.state.tsr;
    led(name, setting, &rows, (lc, tsr), shows)
}

/// One interrupt line the other way than the others.
fn interrupt(setting: &Setting, line: u16) -> [Draft; 2] {
    let (part, bit) = (Part::Interrupts, 1 << line);
    [true, false].map(|high| {
        let (name, value) = match high {
            true => (format!("rows-i{line}"), bit),
            false => (format!("rows-i{line}-low"), part.whole() & !bit),
        };
        let with = with_part(setting.clone(), part, value);
        let (is, others) = if high { (1, 0) } else { (0, 1) };
        let shows = format!("I{line} is {is}, the others {others}: the row for {is} matches.");
        either(&name, with, part, bit, high, &shows)
    })
}

/// Bit 17, asked for and not.
fn bit_17(setting: &Setting) -> Vec<Draft> {
    let both = [("", 1), ("-low", 0)].map(|(low, is)| {
        let with = with_part(setting.clone(), Part::Rni, is);
        let decides = format!("Bit 17 is {is}: the row with RNI {is} matches, the other does not.");
        let any = format!("Bit 17 is {is}: a row with RNI mask 0 matches all the same.");
        let rows = [
            Row::at(LC).lta(IF_1),
            Row::at(LC).asking(Part::Rni, 1, 1 - is).lta(IF_0),
        ];
        let name = format!("rows-rni{low}");
        [
            either(&name, with.clone(), Part::Rni, 1, is == 1, &decides),
            led(&format!("rows-rni-any{low}"), with, &rows, (IF_1, 0), &any),
        ]
    });
    both.concat()
}

/// A row that asks for everything, and for each part one that this part alone keeps from matching.
fn every_mask(setting: &Setting) -> Draft {
    let is = |part: Part| PATTERN & part.whole();
    let parts = Part::ALL.iter();
    let with = parts.clone().fold(setting.clone(), |with, &part| {
        with_part(with, part, is(part))
    });
    let whole = parts.fold(Row::default(), |row, &part| {
        row.asking(part, part.whole(), is(part))
    });
    let other = |(at, part): (u16, Part)| {
        let turned = !PATTERN & part.whole();
        whole.asking(part, part.whole(), turned).lta(1 << at)
    };
    let mut rows = vec![whole.lta(0).ltsr(NEW_TSR)];
    rows.extend((0..).zip(Part::ALL).map(other));
    let shows =
        "The first row asks for all there is and matches; one part keeps each other from it.";
    led("rows-every-mask", with, &rows, (0, NEW_TSR), shows)
}

/// A row that asks for nothing.
fn no_mask(setting: &Setting) -> Draft {
    let row = Row::default().lta(0x123);
    let shows = "A row whose masks are all 0 matches always.";
    led("rows-no-mask", setting.clone(), &[row], (0x123, 0), shows)
}

/// A row for another word, which raises and gives all there is.
fn stray() -> Row {
    Row::at(LC ^ 1).lta(0x7FF).lra().ltsr(7)
}

/// TSR before, rows, and the LC and TSR that they lead to.
type Case<'a> = (&'a str, u8, &'a [Row], (u16, u8), &'a str);

fn cases(setting: &Setting, cases: &[Case]) -> Vec<Draft> {
    let draft = |&(name, tsr, rows, to, shows): &Case| {
        let mut with = setting.clone();
        with.state.tsr = tsr;
        led(name, with, rows, to, shows)
    };
    cases.iter().map(draft).collect()
}

/// What one matching row gives.
fn outputs(setting: &Setting) -> Vec<Draft> {
    let (on, own) = (LC + 1, Row::at(LC));
    let unmatched = "A row for another LC raises every line: none of them counts.";
    let lta = "LTA: LC takes the address, TSR stays; the row for another LC gives nothing.";
    let lra = "LRA: LC takes RR, TSR stays; the row for another LC gives nothing.";
    let over = "One row raises LTA and LRA: LRA wins.";
    let ltsr = "LTSR: TSR takes the new TSR and keeps no bit of the old; LC goes on by one.";
    let zero = "LTSR with a new TSR of 0: TSR takes it.";
    let lines = "A matching row raises no line: its address and new TSR do not count.";
    let all = "One row raises LTA, LRA and LTSR: LC takes RR, TSR the new TSR.";
    cases(
        setting,
        &[
            ("rows-unmatched", 5, &[stray()], (on, 5), unmatched),
            ("rows-lta", 5, &[own.lta(0x123), stray()], (0x123, 5), lta),
            ("rows-lra", 5, &[own.lra(), stray()], (RR, 5), lra),
            (
                "rows-lra-over-lta",
                5,
                &[own.lta(0x123).lra()],
                (RR, 5),
                over,
            ),
            ("rows-ltsr", 3, &[own.ltsr(4), stray()], (on, 4), ltsr),
            ("rows-ltsr-0", 7, &[own.ltsr(0)], (on, 0), zero),
            ("rows-no-lines", 3, &[own.giving(0x123, 4)], (on, 3), lines),
            (
                "rows-all-lines",
                3,
                &[own.lta(0x123).lra().ltsr(4)],
                (RR, 4),
                all,
            ),
        ],
    )
}

/// Two rows that match, with addresses and new TSRs that share no bit, and one that does not.
fn two_and_stray() -> [Row; 3] {
    let own = Row::at(LC);
    [own.lta(0x123).ltsr(1), own.lta(0x454).ltsr(4), stray()]
}

/// What matching rows give together: each output is ORed by itself.
fn together(setting: &Setting) -> Vec<Draft> {
    let own = Row::at(LC);
    let both = two_and_stray();
    let lines = [own.lta(0x123), own.ltsr(4)];
    let bare = [
        own.giving(0x023, 1),
        own.lta(0x100).ltsr(4),
        own.giving(0x400, 0),
    ];
    let or = "Two rows match: addresses and new TSRs are ORed, and not those of the third.";
    let apart = "One row raises LTA, another LTSR: both lines count, each with its own.";
    let without =
        "Rows without LTA and LTSR match too: their address and new TSR bits are ORed in.";
    cases(
        setting,
        &[
            ("rows-or", 2, &both, (0x577, 5), or),
            ("rows-or-lines", 2, &lines, (0x123, 4), apart),
            ("rows-or-no-lines", 2, &bare, (0x523, 5), without),
        ],
    )
}

/// Drafts of RTSR: rows see TSR as it was before, and load it in vain.
pub fn clearing(code: &Code) -> Vec<Draft> {
    let mut setting = setting(code);
    setting.state.tr = 0x3AC5;
    let by = |part: Part, before: u16, after: u16| {
        let asking = |value: u16| Row::at(LC).asking(part, part.whole(), value);
        [asking(before).lta(IF_1), asking(after).lta(IF_0)]
    };
    let (tsr, tr) = (by(Part::Tsr, 1, 0), by(Part::Tr, 0xC5, 0x3A));
    let number = "TSR is 5 before: the row that asks for 1 matches, the row for 0 does not.";
    let lower = "TSR bit 2 is 1 before: TR's lower byte counts, although RTSR clears the bit.";
    let or =
        "Two rows raise LTA and LTSR: LC takes the ORed address, but RTSR clears TSR and wins.";
    cases(
        &setting,
        &[
            ("rows-tsr", 5, &tsr, (IF_1, 0), number),
            ("rows-tr-lower", 4, &tr, (IF_1, 0), lower),
            ("rows-or", 2, &two_and_stray(), (0x577, 0), or),
        ],
    )
}
