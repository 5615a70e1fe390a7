//! Whether rows tell of every bit that they can ask for, so that a board fails that does not compare it.

use crate::draft::Claim;
use crate::row::{Part, Row};
use crate::setting::{Setting, RNI};
use crate::vector::Vector;

/// What a row tells of a bit that it asks for: it matches, or that bit alone keeps it from matching.
#[derive(Clone, Copy, PartialEq, Eq)]
struct Told {
    part: Part,
    /// The lower byte of TR.
    lower: bool,
    bit: u16,
    /// It asks for 1.
    high: bool,
    matches: bool,
}

/// The parts, TR by its bytes, each with what is not told of it, if anything.
pub fn missing(vectors: &[Vector]) -> Vec<Option<String>> {
    let told: Vec<Told> = vectors.iter().flat_map(by_vector).collect();
    let parts = [
        ("LC", Part::Lc, false),
        ("RNI", Part::Rni, false),
        ("TR, upper byte,", Part::Tr, false),
        ("TR, lower byte,", Part::Tr, true),
        ("TSR", Part::Tsr, false),
        ("I0-I6", Part::Interrupts, false),
    ];
    let untold = |&(name, part, lower): &(&str, Part, bool)| {
        let needed = all(part, lower);
        let missing = needed.iter().find(|&one| !told.contains(one))?;
        let asked = u8::from(missing.high);
        let does = match missing.matches {
            true => "matches",
            false => "fails by it alone",
        };
        let at = missing.bit.trailing_zeros();
        Some(format!(
            "{name} bit {at}: no row that asks for {asked} {does}"
        ))
    };
    parts.iter().map(untold).collect()
}

/// The bits under a mask.
fn bits(mask: u16) -> impl Iterator<Item = u16> {
    (0..16).map(|at| 1 << at).filter(move |bit| mask & bit != 0)
}

/// All that must be told of a part.
fn all(part: Part, lower: bool) -> Vec<Told> {
    let mut all = Vec::new();
    for bit in bits(part.whole()) {
        for (high, matches) in [(true, true), (true, false), (false, true), (false, false)] {
            all.push(Told {
                part,
                lower,
                bit,
                high,
                matches,
            });
        }
    }
    all
}

/// What a part is before the attempt.
fn is(setting: &Setting, part: Part) -> u16 {
    let state = &setting.state;
    match part {
        Part::Lc => state.lc,
        Part::Rni => u16::from(setting.word() & RNI != 0),
        Part::Tr if lower(setting) => state.tr & 0xFF,
        Part::Tr => state.tr >> 8,
        Part::Tsr => u16::from(state.tsr & 3),
        Part::Interrupts => u16::from(setting.samples[0].interrupts | state.internal << 4),
    }
}

fn lower(setting: &Setting) -> bool {
    setting.state.tsr & 4 != 0
}

fn by_vector(vector: &Vector) -> Vec<Told> {
    let setting = &vector.draft.setting;
    let lc = match vector.draft.claim {
        Claim::Led { lc, .. } => lc,
        _ => return Vec::new(),
    };
    // A row that fails must have shown in LC if it had matched.
    let shows = |row: &&Row| row.address & !lc != 0;
    let (matching, failing): (Vec<&Row>, Vec<&Row>) = setting
        .rows
        .iter()
        .partition(|row| wrong(setting, row) == 0);
    let failing = failing.into_iter().filter(shows);
    let failing = failing.filter(|row| wrong(setting, row) == 1);
    matching
        .into_iter()
        .chain(failing)
        .flat_map(|row| by_row(setting, row))
        .collect()
}

/// How many bits keep a row from matching.
fn wrong(setting: &Setting, row: &Row) -> u32 {
    let parts = Part::ALL.iter();
    parts
        .map(|&part| other(setting, row, part).count_ones())
        .sum()
}

/// The bits of a part that are not as a row asks.
fn other(setting: &Setting, row: &Row, part: Part) -> u16 {
    let asked = row.asked(part);
    (is(setting, part) ^ asked.value) & asked.mask
}

/// The bits asked for by a row that matches, or the one that keeps it from matching.
fn by_row(setting: &Setting, row: &Row) -> Vec<Told> {
    let matches = wrong(setting, row) == 0;
    let mut told = Vec::new();
    for part in Part::ALL {
        let asked = row.asked(part);
        let mask = if matches {
            asked.mask
        } else {
            other(setting, row, part)
        };
        told.extend(bits(mask).map(|bit| Told {
            part,
            lower: part == Part::Tr && lower(setting),
            bit,
            high: asked.value & bit != 0,
            matches,
        }));
    }
    told
}
