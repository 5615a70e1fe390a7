//! Slips that look right. The cases have to notice each, or they would not notice it in the compiled functions.

use crate::call::{Call, Function, Left};
use crate::rules::Rules;
use crate::summary::{Field, Row};

/// What a wrong version leaves behind.
type Wrong = Box<dyn Fn(&Call) -> Left>;

/// The text that a wrong version takes it for.
type OtherText = fn(&[u8]) -> Vec<u8>;

/// How a wrong version changes what is left behind.
type OtherLeft = fn(&Call, &mut Left);

/// A wrong version, by what is wrong with it.
pub struct Slip {
    pub name: &'static str,
    pub wrong: Wrong,
}

/// All of them.
pub fn all() -> Vec<Slip> {
    let by_rules = settings()
        .into_iter()
        .chain(summaries())
        .map(|(name, rules)| {
            let wrong: Wrong = Box::new(move |call| call.by(&rules));
            Slip { name, wrong }
        });
    let by_input = INPUTS.iter().map(|(name, change)| {
        let rules = Rules::new();
        let wrong: Wrong = Box::new(move |call| {
            let mut changed = call.clone();
            if call.function == Function::Assemble {
                changed.input = change(&call.input);
            }
            changed.by(&rules)
        });
        Slip { name, wrong }
    });
    let by_output = OUTPUTS.iter().map(|(name, change)| {
        let rules = Rules::new();
        let wrong: Wrong = Box::new(move |call| {
            let mut left = call.by(&rules);
            change(call, &mut left);
            left
        });
        Slip { name, wrong }
    });
    let by_listing = LISTINGS.iter().map(|(name, change)| {
        let rules = Rules::new();
        let wrong: Wrong = Box::new(move |call| match call.function {
            Function::Assemble => call.by(&rules),
            Function::List => call.leaving(rules.list(&call.input).map(|text| change(&text))),
        });
        Slip { name, wrong }
    });
    let slips = by_rules.chain(by_input).chain(by_output);
    slips.chain(by_listing).collect()
}

/// Rules with one change of a setting.
fn settings() -> Vec<(&'static str, Rules)> {
    vec![
        (
            "the address may be equal",
            changed(|rules| rules.equal_addresses = true),
        ),
        ("a gap is FF01", changed(|rules| rules.gap = 0xFF01)),
        ("U has two digits", changed(|rules| rules.user_digits = 2)),
        (
            "a mark may stand twice",
            changed(|rules| rules.marks_twice = true),
        ),
        (
            "ODD goes with every code",
            changed(|rules| rules.odd_anywhere = true),
        ),
    ]
}

/// Rules with one change of the summary.
fn summaries() -> Vec<(&'static str, Rules)> {
    let swapped = changed(|rules| {
        let registers = rules.rows.iter_mut().filter(|row| row.word >= 0x7000);
        registers.for_each(|row| row.operands.reverse());
    });
    let long = vec![Field { low: 0, width: 11 }];
    let without =
        |mnemonic: &str| changed(|rules| rules.rows.retain(|row| row.mnemonic != mnemonic));
    vec![
        ("operands are swapped", swapped),
        (
            "B6 is SW",
            changed(|rules| row(rules, "CW").mnemonic = "SW"),
        ),
        (
            "BC is DBI",
            changed(|rules| row(rules, "DB1").mnemonic = "DBI"),
        ),
        ("CAD is not listed", without("CAD")),
        ("SLW is not listed", without("SLW")),
        (
            "AE has no twin",
            changed(|rules| row(rules, "CAWI").twin = false),
        ),
        (
            "CCF has no don't-care operand",
            changed(|rules| row(rules, "CCF").rest = None),
        ),
        (
            "JNT has 11 bits",
            changed(|rules| row(rules, "JNT").operands = long.clone()),
        ),
    ]
}

fn changed(change: impl Fn(&mut Rules)) -> Rules {
    let mut rules = Rules::new();
    change(&mut rules);
    rules
}

fn row<'a>(rules: &'a mut Rules, mnemonic: &str) -> &'a mut Row {
    let mut rows = rules.rows.iter_mut();
    rows.find(|row| row.mnemonic == mnemonic)
        .expect("the row exists")
}

/// The right assembler on another text.
const INPUTS: &[(&str, OtherText)] = &[
    ("a tab is a space", |text| replaced(text, b'\t', b' ')),
    ("a carriage return is a space", |text| {
        replaced(text, b'\r', b' ')
    }),
    ("a zero byte is a space", |text| replaced(text, 0, b' ')),
    ("no lower case in numbers", |text| {
        replaced(text, b'f', b'!')
    }),
    ("no lower case in marks", |text| replaced(text, b'u', b'!')),
    ("the top bit counts nothing", |text| {
        text.iter().map(|byte| byte & 127).collect()
    }),
    ("a line without its newline is lost", |text| {
        let end = text.iter().rposition(|byte| *byte == b'\n');
        text[..end.map_or(0, |end| end + 1)].to_vec()
    }),
    ("an empty last line is none", |text| {
        text.strip_suffix(b"\n\n")
            .map_or(text.to_vec(), |start| [start, b"\n"].concat())
    }),
    ("numbers wrap at 2^32", |text| {
        let pieces = text.split(|byte| *byte == b' ');
        let cut = pieces.map(|piece| {
            if piece.len() > 8 && piece[0] == b'1' {
                &piece[piece.len() - 8..]
            } else {
                piece
            }
        });
        cut.collect::<Vec<_>>().join(&b' ')
    }),
];

fn replaced(text: &[u8], from: u8, to: u8) -> Vec<u8> {
    text.iter()
        .map(|byte| if *byte == from { to } else { *byte })
        .collect()
}

/// The right lister's text spelled otherwise.
const LISTINGS: &[(&str, OtherText)] = &[
    ("a don't-care operand of 0 is listed", |text| {
        spelled(text, "NOP\n", "NOP 00\n")
    }),
    ("RNI is listed before RR", |text| {
        spelled(text, " RR RNI", " RNI RR")
    }),
    ("RFS has two digits", |text| spelled(text, "RFS 0", "RFS ")),
    ("U0 is listed", |text| spelled(text, " RR\n", " RR U0\n")),
    ("mnemonics are listed in lower case", |text| {
        spelled(text, "JMP", "jmp")
    }),
    ("the last line has no newline", |text| {
        text.strip_suffix(b"\n").unwrap_or(text).to_vec()
    }),
];

fn spelled(text: &[u8], from: &str, to: &str) -> Vec<u8> {
    String::from_utf8_lossy(text).replace(from, to).into_bytes()
}

/// Another report or another output than the right one.
const OUTPUTS: &[(&str, OtherLeft)] = &[
    ("lines are counted from 0", |_, left| {
        left.at -= u32::from((10..=12).contains(&left.answer));
    }),
    ("27 has no length", |_, left| {
        left.length *= u32::from(left.answer != 27);
    }),
    ("27 writes what there is room for", |_, left| {
        if left.answer == 27 {
            left.output.fill(0);
        }
    }),
    ("a refused text is written up to its line", |_, left| {
        if (10..=12).contains(&left.answer) && left.at > 1 {
            left.output
                .iter_mut()
                .take(4)
                .for_each(|byte| *byte = !*byte);
        }
    }),
    ("the output is cleared past its end", |_, left| {
        if left.answer == 0 {
            left.output[left.length as usize..].fill(0);
        }
    }),
    (
        "the address of a 2 is that of the cut word",
        |call, left| {
            if left.answer == 2 && call.input.len() % 4 != 0 {
                left.at = left.at.min(call.input.len() as u32 / 4);
            }
        },
    ),
    ("6 comes before 2", |call, left| {
        if left.answer == 2 && call.input.starts_with(&[0, 0x78, 0, 0]) {
            (left.answer, left.at) = (6, 0);
        }
    }),
    ("the address decides first", |call, left| {
        let line = call
            .input
            .split(|byte| *byte == b'\n')
            .nth(left.at.saturating_sub(1) as usize);
        if left.answer == 10 && line.map_or(false, |line| line.starts_with(b"800 ")) {
            left.answer = 12;
        }
    }),
    ("a byte beyond the output is touched", |_, left| {
        left.damage |= u32::from(left.answer == 0 && left.output.len() as u32 == left.length);
    }),
];
