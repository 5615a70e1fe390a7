//! The page as it is read.

use compare::flags;
use std::ops::RangeInclusive;

/// One line of the page.
#[derive(Debug)]
pub struct Requirement {
    pub key: String,
    /// Top bytes.
    pub codes: RangeInclusive<u8>,
    /// Nothing where it is unlisted.
    pub format: Option<String>,
    /// Nothing where it never completes.
    pub facts: Option<Facts>,
    refusals: String,
    pub vectors: usize,
}

/// What a completed attempt shows.
#[derive(Debug)]
pub struct Facts {
    pub microcycles: u32,
    /// N Z V C NB ZB C4 C8, high to low.
    pub flags: u8,
    /// Of Ra, the high byte of its pair and Rb: bits 0, 1 and 2.
    pub registers: usize,
    /// With REPLY and BUSY low, REPLY high, BUSY high, both high.
    pub waits: [bool; 4],
    /// Whether CP1621B keeps SYNC and IACK with b 4-7 only if Q1 is false; else both markings do the same.
    pub asks_for_rmw: bool,
}

const HEADS: [&str; 2] = [
    "| Key | Codes | Format | Microcycles | Status | Condition | Registers | Waits | CP1621B | Refusals | Vectors |",
    "| Key | Code | Refusals | Vectors |",
];

/// The lines of the page's two tables, by their top bytes.
pub fn read(text: &str) -> Result<Vec<Requirement>, String> {
    let lines = text.lines().filter(|line| line.starts_with("| "));
    let (heads, rows): (Vec<&str>, Vec<&str>) = lines.partition(|line| line.starts_with("| Key"));
    if heads != HEADS {
        return Err("the tables have other columns".to_string());
    }
    let mut requirements = rows
        .into_iter()
        .map(|line| requirement(line).ok_or(format!("cannot be read: {line}")))
        .collect::<Result<Vec<_>, _>>()?;
    requirements.sort_by_key(|it| *it.codes.start());
    Ok(requirements)
}

fn requirement(line: &str) -> Option<Requirement> {
    let cells: Vec<&str> = line.trim_matches('|').split('|').map(str::trim).collect();
    let (key, refusals, vectors) = match cells[..] {
        [key, _, refusals, vectors] => (key, refusals, vectors),
        [key, _, _, _, _, _, _, _, _, refusals, vectors] => (key, refusals, vectors),
        _ => return None,
    };
    let (number, file) = vectors.strip_prefix('[')?.split_once("](../vectors/")?;
    let facts = match cells.get(3) {
        Some(microcycles) if cells.len() == 11 && !microcycles.is_empty() => Some(facts(&cells)?),
        _ => None,
    };
    (file.strip_suffix(".txt)")? == key).then_some(())?;
    Some(Requirement {
        key: key.to_string(),
        codes: codes(cells[1])?,
        format: (cells.len() == 11).then(|| cells[2].to_string()),
        facts,
        refusals: refusals.to_string(),
        vectors: number.parse().ok()?,
    })
}

fn codes(cell: &str) -> Option<RangeInclusive<u8>> {
    let (first, last) = cell.split_once('-').unwrap_or((cell, cell));
    let top = |digits| u8::from_str_radix(digits, 16).ok();
    Some(top(first)?..=top(last)?)
}

fn facts(cells: &[&str]) -> Option<Facts> {
    Some(Facts {
        microcycles: cells[3].parse().ok()?,
        flags: flags(cells[4], 0x0F)? | flags(cells[5], 0xF0)?,
        registers: match cells[6] {
            "none" => 0,
            "Ra" => 0b001,
            "Ra's pair" => 0b011,
            "Ra and Rb" => 0b101,
            _ => return None,
        },
        waits: match cells[7] {
            "never" => [false; 4],
            "REPLY or BUSY high" => [false, true, true, true],
            "REPLY low" => [true, false, true, false],
            _ => return None,
        },
        asks_for_rmw: match cells[8] {
            "the same" => false,
            "b 4-7: SYNC and IACK kept only if Q1 is false" => true,
            _ => return None,
        },
    })
}

/// The flags named, all of the column's own.
fn flags(cell: &str, own: u8) -> Option<u8> {
    let mut names = cell.split(' ').filter(|name| *name != "none");
    let mask = names.try_fold(0, |mask, name| Some(mask | flags::bit(name)?))?;
    (mask & !own == 0).then_some(mask)
}

/// Manual 5.2's format of a top byte.
pub fn format(top: u8) -> &'static str {
    match top {
        0x00..=0x0F => "jump",
        0x10..=0x1F => "conditional jump",
        0x20..=0x6F => "literal",
        _ => "register",
    }
}

impl Facts {
    /// Whether what the page tells of SYNC and IACK is so, by [`Observed::kept`](crate::observed::Observed).
    pub fn bus(&self, kept: &[[[bool; 2]; 16]; 2]) -> bool {
        if !self.asks_for_rmw {
            return kept[0] == kept[1];
        }
        // Of b over 7, which is refused, nothing is seen.
        let told = |marking, b| [b >= 4, b >= 4 && marking == 0];
        (0..2).all(|marking| (0..8).all(|b| kept[marking][b] == told(marking, b)))
    }
}

impl Requirement {
    /// CAD is listed too.
    pub fn listed(&self) -> bool {
        !self.key.ends_with("-unlisted")
    }

    /// The refusal, or 0, that the page tells for b and a in a word's low byte.
    pub fn refusal(&self, low: u8) -> u8 {
        let b = low >> 4;
        let causes = self.refusals.split('.').map(str::trim);
        let met = causes.filter(|cause| match *cause {
            "" | "none" => false,
            "6: code unlisted" | "6: the engine always refuses it" => true,
            "8: b over 7" => b > 7,
            "8: b over 3" => b > 3,
            // A cause that is not known here is met by every word, with a number that no word has.
            _ => true,
        });
        let numbers = met.map(|cause| cause.as_bytes()[0].wrapping_sub(b'0'));
        numbers.min().unwrap_or(0)
    }
}
