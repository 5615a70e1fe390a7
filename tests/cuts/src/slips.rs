//! Slips that look right. The decks have to tell each, or they would not tell it of the engine.

use crate::cutter::{Manner, MARKS, RIGHT, WAITING};
use interpreter::{Marking, Report};

/// A wrong way to run a deck in parts, by what is wrong with it.
pub struct Slip {
    pub name: &'static str,
    pub manner: Manner,
}

/// All of them.
pub fn all() -> Vec<Slip> {
    let states = STATES.iter().map(|&(name, state)| {
        let manner = Manner { state, ..RIGHT };
        Slip { name, manner }
    });
    let sums = SUMS.iter().map(|&(name, sum)| {
        let manner = Manner { sum, ..RIGHT };
        Slip { name, manner }
    });
    states.chain(sums).chain(others()).collect()
}

/// The state back with a byte changed.
fn changed(back: &[u8], at: usize, change: fn(u8) -> u8) -> Vec<u8> {
    let mut state = back.to_vec();
    state[at] = change(state[at]);
    state
}

/// Another state for the rest.
type OtherState = fn(&[u8], &[u8]) -> Vec<u8>;

const STATES: &[(&str, OtherState)] = &[
    ("the waiting modification is lost at a cut", |_, back| {
        let mut state = changed(back, MARKS, |marks| marks & !WAITING);
        state[39..41].fill(0);
        state
    }),
    ("the modification's bits are lost at a cut", |_, back| {
        let mut state = back.to_vec();
        state[39..41].fill(0);
        state
    }),
    ("IACK is lost at a cut", |_, back| {
        changed(back, MARKS, |marks| marks & !4)
    }),
    ("SYNC is lost at a cut", |_, back| {
        changed(back, MARKS, |marks| marks & !2)
    }),
    ("ICS is lost at a cut", |_, back| {
        changed(back, MARKS, |marks| marks & !1)
    }),
    ("I4-I6 are lost at a cut", |_, back| {
        changed(back, 38, |_| 0)
    }),
    ("the outputs are lost at a cut", |_, back| {
        changed(back, 41, |_| 0)
    }),
    ("the state is not handed on", |own, _| own.to_vec()),
];

/// Another report.
type OtherSum = fn(Report, Report) -> Report;

const SUMS: &[(&str, OtherSum)] = &[
    ("the microcycles are not summed", |so_far, part| Report {
        microcycles: part.microcycles,
        ..(RIGHT.sum)(so_far, part)
    }),
    ("the attempts are not summed", |so_far, part| Report {
        attempts: part.attempts,
        ..(RIGHT.sum)(so_far, part)
    }),
    (
        "a refusal is taken for the end of a part",
        |so_far, part| Report {
            answer: 0,
            ..(RIGHT.sum)(so_far, part)
        },
    ),
    ("a refused attempt is counted", |so_far, part| {
        let sum = (RIGHT.sum)(so_far, part);
        let refused = u32::from(part.answer != 0);
        Report {
            attempts: sum.attempts + refused,
            ..sum
        }
    }),
];

/// Another end, other samples, places and markings.
fn others() -> [Slip; 4] {
    [
        Slip {
            name: "the rest is run after a refusal",
            manner: Manner {
                goes_on: |_| true,
                ..RIGHT
            },
        },
        Slip {
            name: "a cut drops a sample",
            manner: Manner {
                sample: |cut| cut + 1,
                ..RIGHT
            },
        },
        Slip {
            name: "the requests of the rest are written from place 0",
            manner: Manner {
                place: |_| 0,
                ..RIGHT
            },
        },
        Slip {
            name: "the rest is run with the other marking",
            manner: Manner {
                marking: other,
                ..RIGHT
            },
        },
    ]
}

/// The other marking.
fn other(marking: u32) -> u32 {
    match Marking::from_number(marking) {
        Some(Marking::Cp1661b) => Marking::Cp1621b.number(),
        _ => Marking::Cp1661b.number(),
    }
}
