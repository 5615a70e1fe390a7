//! A deck run in parts, each from the state that the one before it handed back.

use compare::call::{Call, Left};
use compare::deck::Sections;
use interpreter::Report;

/// The byte of a state that has the marks.
pub const MARKS: usize = 37;
/// The mark of a waiting modification.
pub const WAITING: u8 = 8;

/// The driver's bit of what is touched around the requests.
const AROUND_REQUESTS: u32 = 2;

/// Where a deck is cut, and the room that its parts have for requests.
pub struct Cuts {
    /// Places among the samples, rising; 0, the end and the same place again are cuts too.
    pub places: Vec<usize>,
    /// Each part but the last has the places of its own samples alone, not all that are left.
    pub narrow: bool,
}

/// How what one part leaves behind goes into the next, and their reports into one.
pub struct Manner {
    /// The state of the rest's deck, from the one run's deck and as it was handed back.
    pub state: fn(&[u8], &[u8]) -> Vec<u8>,
    /// The rest's first sample.
    pub sample: fn(usize) -> usize,
    /// The place of the rest's first request.
    pub place: fn(usize) -> usize,
    /// The rest's marking.
    pub marking: fn(u32) -> u32,
    /// Whether the rest is run after this answer.
    pub goes_on: fn(u32) -> bool,
    /// The report of the parts so far and of one more.
    pub sum: fn(Report, Report) -> Report,
}

/// As it is meant.
pub const RIGHT: Manner = Manner {
    state: |_, back| back.to_vec(),
    sample: |cut| cut,
    place: |cut| cut,
    marking: |marking| marking,
    goes_on: |answer| answer == 0,
    sum: |so_far, part| Report {
        answer: part.answer,
        attempts: so_far.attempts + part.attempts,
        microcycles: so_far.microcycles + part.microcycles,
    },
};

/// A deck of which some parts are run.
pub struct Parts<'a> {
    whole: &'a Call,
    sections: Sections<'a>,
    cuts: &'a Cuts,
    manner: &'a Manner,
    /// What the parts so far leave behind, as one run would.
    left: Left,
    /// How many parts were run.
    pub made: usize,
    /// How many cuts found a modification waiting.
    pub waiting: usize,
    /// A part had no answer.
    lost: bool,
}

impl<'a> Parts<'a> {
    /// No part yet; nothing when the deck has no sections.
    pub fn new(whole: &'a Call, cuts: &'a Cuts, manner: &'a Manner) -> Option<Self> {
        Some(Self {
            whole,
            sections: Sections::of(&whole.deck)?,
            cuts,
            manner,
            left: untouched(whole),
            made: 0,
            waiting: 0,
            lost: false,
        })
    }

    /// The samples of the next part.
    fn samples(&self) -> (usize, usize) {
        let end = self.sections.samples.len() / 4;
        let place = |cut: usize| self.cuts.places.get(cut).copied();
        let from = self.made.checked_sub(1).and_then(place);
        let to = place(self.made).unwrap_or(end);
        let from = from.map_or(0, |cut| (self.manner.sample)(cut).min(to));
        (from, to)
    }

    /// The bytes of the request buffer that the next part is given.
    fn room(&self) -> std::ops::Range<usize> {
        let cut = self.made.checked_sub(1).map(|cut| self.cuts.places[cut]);
        let start = cut.map_or(0, |cut| 4 * (self.manner.place)(cut));
        let (from, to) = self.samples();
        match self.cuts.narrow && self.made < self.cuts.places.len() {
            true => start..start + 4 * (to - from),
            false => start..self.left.requests.len(),
        }
    }

    /// The call of the next part; nothing after the last, a refused or a lost one.
    pub fn next(&self) -> Option<Call> {
        let goes_on = (self.manner.goes_on)(self.left.report.answer);
        if self.made > self.cuts.places.len() || !goes_on || self.lost {
            return None;
        }
        let (own, (from, to)) = (self.sections, self.samples());
        let (state, marking) = match self.made {
            0 => (own.state.to_vec(), self.whole.marking),
            _ => (
                (self.manner.state)(own.state, &self.left.state),
                (self.manner.marking)(self.whole.marking),
            ),
        };
        let part = Sections {
            state: &state,
            samples: &own.samples[4 * from..4 * to],
            ..own
        };
        Some(Call {
            deck: part.deck(),
            requests: self.left.requests[self.room()].to_vec(),
            state: self.whole.state.clone(),
            marking,
        })
    }

    /// Takes what the next part left behind, or that it has no answer.
    pub fn take(&mut self, part: Option<&Left>) {
        let part = match part {
            Some(part) => part,
            None => return self.lost = true,
        };
        let (from, to) = self.samples();
        let room = self.room();
        let room = &mut self.left.requests[room];
        // The next part may write over it.
        let beyond = part.requests[4 * (to - from)..] != room[4 * (to - from)..];
        room.copy_from_slice(&part.requests);
        self.left.state.clone_from(&part.state);
        self.left.damage |= part.damage | if beyond { AROUND_REQUESTS } else { 0 };
        self.left.report = (self.manner.sum)(self.left.report, part.report);
        let goes_on = part.report.answer == 0 && self.made < self.cuts.places.len();
        let waiting = goes_on && part.state[MARKS] & WAITING != 0;
        self.waiting += usize::from(waiting);
        self.made += 1;
    }

    /// What all parts left behind; nothing when one had no answer.
    pub fn left(&self) -> Option<&Left> {
        (!self.lost).then_some(&self.left)
    }
}

/// What a call without attempts leaves behind.
fn untouched(whole: &Call) -> Left {
    let report = Report {
        answer: 0,
        attempts: 0,
        microcycles: 0,
    };
    Left {
        report,
        damage: 0,
        requests: whole.requests.clone(),
        state: whole.state.clone(),
    }
}
