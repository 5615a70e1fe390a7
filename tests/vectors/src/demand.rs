//! A vector that a code must have.

use crate::draft::Claim;
use crate::setting::Setting;
use crate::vector::Vector;
use interpreter::{place, q1, Marking, State};

/// A vector that a code must have: its name, and what the name says of it.
pub struct Demand {
    name: String,
    /// What it must claim; whether the claim holds is checked for every vector.
    claim: Option<Claim>,
    /// Bits of its word, and what they must be.
    word: (u32, u32),
    /// Lines of its first sample, and what they must be.
    lines: (u8, u8),
    /// Bits of what it shifts, in the top byte, and what they must be.
    shifted: (u8, u8),
    /// The designators of registers that must change.
    changed: &'static [u8],
    /// What must be so before.
    before: fn(&State) -> bool,
    /// The marking that it must have.
    marking: Option<Marking>,
    /// Whether it must find SYNC and IACK high and leave both so, or leave both low.
    keeps_bus: Option<bool>,
    /// A bit of TR that must turn Q1.
    turning: Option<u32>,
}

impl Demand {
    /// A vector with this name.
    pub fn named(name: impl Into<String>) -> Self {
        Self {
            name: name.into(),
            claim: None,
            word: (0, 0),
            lines: (0, 0),
            shifted: (0, 0),
            changed: &[],
            before: |_| true,
            marking: None,
            keeps_bus: None,
            turning: None,
        }
    }

    /// It must claim this.
    pub fn claim(self, claim: Claim) -> Self {
        let claim = Some(claim);
        Self { claim, ..self }
    }

    /// Under this mask its word must be this.
    pub fn word(self, mask: u32, value: u32) -> Self {
        let word = (mask, value);
        Self { word, ..self }
    }

    /// Under this mask the lines of its first sample must be this.
    pub fn lines(self, mask: u8, value: u8) -> Self {
        let lines = (mask, value);
        Self { lines, ..self }
    }

    /// Under this mask the top byte of Rb, or of its pair, must be this before.
    pub fn shifted(self, mask: u8, value: u8) -> Self {
        let shifted = (mask, value);
        Self { shifted, ..self }
    }

    /// The registers of these designators must change.
    pub fn changed(self, changed: &'static [u8]) -> Self {
        Self { changed, ..self }
    }

    /// The state before must be such.
    pub fn before(self, before: fn(&State) -> bool) -> Self {
        Self { before, ..self }
    }

    /// It must be run under this marking.
    pub fn marking(self, marking: Marking) -> Self {
        let marking = Some(marking);
        Self { marking, ..self }
    }

    /// It must find SYNC and IACK high, and both must stay, or both fall.
    pub fn keeps_bus(self, keeps: bool) -> Self {
        let keeps_bus = Some(keeps);
        Self { keeps_bus, ..self }
    }

    /// Q1 must be another with this bit of TR turned.
    pub fn turning(self, bit: u32) -> Self {
        let turning = Some(bit);
        Self { turning, ..self }
    }

    /// How the demand is not met, if it is not.
    pub fn unmet(&self, vectors: &[Vector]) -> Option<String> {
        let name = &self.name;
        match vectors.iter().find(|own| own.draft.name == *name) {
            None => Some(format!("no vector {name}")),
            Some(own) if self.meets(own) => None,
            Some(_) => Some(format!("{name} is not what its name says")),
        }
    }

    fn meets(&self, own: &Vector) -> bool {
        let (draft, setting) = (&own.draft, &own.draft.setting);
        let lines = setting.samples.first().map_or(0, |sample| sample.lines);
        self.claim.map_or(true, |claim| claim == draft.claim)
            && setting.word() & self.word.0 == self.word.1
            && lines & self.lines.0 == self.lines.1
            && top_byte(setting) & self.shifted.0 == self.shifted.1
            && self
                .changed
                .iter()
                .all(|&designator| changes(own, designator))
            && (self.before)(&setting.state)
            && self.meets_marking(own)
    }

    fn meets_marking(&self, own: &Vector) -> bool {
        let Setting { state, marking, .. } = &own.draft.setting;
        let bus = |keeps: bool| {
            let after = own.after().map(|after| (after.sync, after.iack));
            state.sync && state.iack && after == Some((keeps, keeps))
        };
        let turns = |bit: u32| q1(state.tr) != q1(state.tr ^ 1 << bit);
        self.marking.map_or(true, |wanted| wanted == *marking)
            && self.keeps_bus.map_or(true, bus)
            && self.turning.map_or(true, turns)
    }
}

/// Whether the register of a designator is another after than before.
fn changes(own: &Vector, designator: u8) -> bool {
    let before = &own.draft.setting.state;
    let at = place(designator, before.g);
    own.after()
        .map_or(false, |after| after.registers[at] != before.registers[at])
}

/// Rb, or the high byte of its pair where 80-DF work on words.
fn top_byte(setting: &Setting) -> u8 {
    let (state, word) = (&setting.state, setting.word());
    let high = (word >> 9) as u8 & 1;
    state.registers[place((word >> 4) as u8 ^ high, state.g)]
}
