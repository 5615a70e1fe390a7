//! The marking, 02's L14: under CP1621B an RMW input keeps the bus only if Q1 is false, by TR before
//! the instruction.

mod common;

use common::*;
use interpreter::decks::{case, single, Kind};
use interpreter::{attempt, q1, Marking, Outcome, Row, Sample, State, STATE_BYTES};

const BOTH: [Marking; 2] = [Marking::Cp1661b, Marking::Cp1621b];

/// TR with Q1 true: by the first term with the other bits low, high, and as the second has them; by
/// the second with the other bits low and high.
const TRUE: [u16; 6] = [0x2000, 0xBFFF, 0x3FFF, 0x2BC0, 0x0BC0, 0x8BFF];

/// TR with Q1 false: the first term wrong in TR14 and TR13.
const FIRST_MISSED: [u16; 6] = [0x6000, 0x0000, 0x8000, 0xFFFF, 0x7FFF, 0x9FFF];

/// TR with Q1 false: the second term wrong in one bit, TR14, TR12 and TR11 down to TR6.
const SECOND_MISSED: [u16; 8] = [
    0x4BC0, 0x1BC0, 0x03C0, 0x0FC0, 0x09C0, 0x0AC0, 0x0B40, 0x0B80,
];

/// Q1 by masks: bits that a term names, and what they are in it.
fn by_masks(tr: u16) -> bool {
    [(0x6000, 0x2000), (0x5FC0, 0x0BC0)]
        .iter()
        .any(|&(named, value)| tr & named == value)
}

/// One attempt of a word at address 0, without rows.
fn marked(word: u32, state: &mut State, sample: Sample, marking: Marking) -> Outcome {
    attempt(&[word], &[], state, sample, marking)
}

/// IB or IW: SYNC and IACK fall or stay under a marking, and all else is as under CP1661B.
fn bus(word: u32, tr: u16, falls: bool, marking: Marking) {
    for (sync, iack) in [(true, true), (true, false), (false, true), (false, false)] {
        let before = State {
            tr,
            sync,
            iack,
            ..blank()
        };
        let (mut state, mut base) = (before.clone(), before);
        let sample = Sample {
            ics: true,
            ..reply(0x8765)
        };
        let outcome = marked(word, &mut state, sample, marking);
        let told = || format!("{word:X} TR {tr:04X} {marking:?}");
        assert_eq!(outcome, done(5, 0x8765, 1 + (word >> 9 & 1)), "{}", told());
        let wanted = (sync && !falls, iack && !falls);
        assert_eq!((state.sync, state.iack), wanted, "{}", told());
        marked(word, &mut base, sample, Marking::Cp1661b);
        (base.sync, base.iack) = wanted;
        assert_eq!(state, base, "{}", told());
    }
}

/// Every IB and IW with this TR; under CP1621B b 4-7 let the bus go when Q1 is true.
fn every_input(tr: u16, q1: bool) {
    for top in 0xE0..=0xE3 {
        for b in 0..8 {
            let word = top << 8 | b << 4 | 2;
            bus(word, tr, b < 4, Marking::Cp1661b);
            bus(word, tr, b < 4 || q1, Marking::Cp1621b);
        }
    }
}

#[test]
fn q1_true_lets_the_bus_go() {
    TRUE.iter().for_each(|&tr| every_input(tr, true));
}

#[test]
fn q1_false_keeps_the_bus() {
    FIRST_MISSED.iter().for_each(|&tr| every_input(tr, false));
    SECOND_MISSED.iter().for_each(|&tr| every_input(tr, false));
}

#[test]
fn q1_of_every_tr() {
    let mut high = 0;
    for tr in 0..=0xFFFF {
        assert_eq!(q1(tr), by_masks(tr), "{tr:04X}");
        for marking in BOTH {
            let mut state = State { tr, ..in_access() };
            marked(0xE042, &mut state, reply(0), marking);
            let falls = marking == Marking::Cp1621b && by_masks(tr);
            assert_eq!((state.sync, state.iack), (!falls, !falls), "{tr:04X}");
        }
        high += u32::from(q1(tr));
    }
    // A quarter by the first term, and a 256th by the second, half of it not by the first.
    assert_eq!(high, 65_536 / 4 + 65_536 / 512);
}

#[test]
fn tr_before_the_instruction_counts() {
    for b in [5, 6, 7] {
        for (tr, data, falls) in [(0x0000, 0x2000, false), (0x2000, 0x0000, true)] {
            let mut state = State { tr, ..in_access() };
            marked(0xE202 | b << 4, &mut state, reply(data), Marking::Cp1621b);
            assert_eq!((state.tr, state.sync, state.iack), (data, !falls, !falls));
        }
    }
    // The next instruction sees what was loaded, by IW and by LTR.
    for load in [0xE272, 0xEE32] {
        let mut state = in_access();
        state.registers[r(3)] = 0x20;
        marked(load, &mut state, reply(0x2000), Marking::Cp1621b);
        assert_eq!((state.tr, state.sync), (0x2000, true));
        state.lc = 0;
        marked(0xE042, &mut state, reply(0), Marking::Cp1621b);
        assert_eq!((state.sync, state.iack), (false, false));
    }
}

#[test]
fn a_modification_can_make_it_an_rmw() {
    for (tr, falls) in [(0x2000, true), (0x0B80, false)] {
        let mut state = State {
            tr,
            modification: Some(0x0040),
            ..in_access()
        };
        marked(0xE002, &mut state, reply(0), Marking::Cp1621b);
        assert_eq!((state.sync, state.iack), (!falls, !falls));
    }
}

#[test]
fn waits_refusals_and_status_inputs_keep_the_bus() {
    let before = State {
        tr: 0x2BC0,
        ..in_access()
    };
    for b in 0..16 {
        for (top, sample) in [
            (0xE000, compute()),
            (0xE200, compute()),
            (0xE400, reply(7)),
            (0xE600, reply(7)),
        ] {
            let mut state = before.clone();
            let outcome = marked(top | b << 4 | 2, &mut state, sample, Marking::Cp1621b);
            let wanted = match (top, b) {
                (0xE000 | 0xE200, 8..) | (0xE400, 4..) => Outcome::Refused(8),
                (0xE000 | 0xE200, _) => done(10, 0, 1),
                _ => done(9, 7, 1 + (top >> 9 & 1)),
            };
            assert_eq!(outcome, wanted, "{top:X} {b}");
            assert!(state.sync && state.iack, "{top:X} {b}");
        }
    }
}

/// What an attempt of the generator leaves behind under a marking.
fn left(seed: u64, marking: Marking) -> (Outcome, State) {
    let single = single(seed);
    let rows: Option<Vec<Row>> = single.rows.iter().map(Row::from_bytes).collect();
    let mut state = State::from_bytes(&single.state).unwrap();
    let sample = Sample::from_bytes(&single.sample).unwrap();
    let outcome = attempt(&single.words, &rows.unwrap(), &mut state, sample, marking);
    (outcome, state)
}

#[test]
fn nothing_else_goes_by_the_marking() {
    let mut differing = 0;
    for seed in 0..256 * 400 {
        let [(base, kept), (other, mut fallen)] = BOTH.map(|marking| left(seed, marking));
        assert_eq!(base, other, "{seed}");
        if kept != fallen {
            differing += 1;
            let data_in = matches!(base, Outcome::Done { request, .. } if request >> 16 == 5);
            assert!(data_in && !fallen.sync && !fallen.iack, "{seed}");
            (fallen.sync, fallen.iack) = (kept.sync, kept.iack);
        }
        assert_eq!(kept, fallen, "{seed}");
    }
    assert!(differing >= 100, "{differing}");
}

#[test]
fn runs_differ_in_the_bus_alone() {
    const MARKS: usize = 37;
    let mut differing = 0;
    for (kind, seed) in [Kind::Inputs, Kind::Short, Kind::Long, Kind::Illegal]
        .into_iter()
        .flat_map(|kind| (0..100).map(move |seed| (kind, seed)))
    {
        let case = case(kind, seed);
        let [base, mut other] =
            BOTH.map(|marking| ran_as(&case.deck, case.requests, case.state, marking.number()));
        assert_eq!(base.numbers(), other.numbers(), "{kind:?} {seed}");
        assert_eq!(base.requests, other.requests, "{kind:?} {seed}");
        differing += u32::from(base.state != other.state);
        // SYNC and IACK that fell under CP1621B alone.
        other.state[MARKS] |= base.state[MARKS] & 6;
        assert_eq!(base.state, other.state, "{kind:?} {seed}");
    }
    assert!(differing >= 10, "{differing}");
}

#[test]
fn the_numbers_on_the_chips() {
    for marking in BOTH {
        assert_eq!(Marking::from_number(marking.number()), Some(marking));
    }
    let known: Vec<u32> = (0..=0x1_FFFF)
        .filter(|&number| Marking::from_number(number).is_some())
        .collect();
    assert_eq!(known, [1621, 1661]);
}

#[test]
fn twenty_four() {
    let valid = deck(&[0xFF00], &[], &BLANK, &[[0, 0, 4, 0]]);
    for marking in [1661, 1621] {
        let ran = ran_as(&valid, 4, STATE_BYTES, marking);
        assert_eq!(ran.numbers(), [0, 1, 1]);
    }
    let mut bad_state = BLANK;
    bad_state[26] = 8;
    // Words, rows, samples and buffer are wrong too, and the state with them.
    let worse = deck(&[1 << 22], &[[0xFF; 16]], &bad_state, &[[0, 0, 32, 0]]);
    let unlisted = deck(&[0x7800], &[], &BLANK, &[[0, 0, 4, 0]]);
    let empty = deck(&[], &[], &BLANK, &[]);
    for marking in [0, 1, 24, 1620, 1622, 1660, 1662, 67_197, 67_157, u32::MAX] {
        for (deck, requests) in [(&valid, 4), (&worse, 3), (&unlisted, 4), (&empty, 0)] {
            let ran = ran_as(deck, requests, STATE_BYTES, marking);
            assert_eq!(ran.numbers(), [24, 0, 0], "{marking}");
            assert!(ran.untouched());
        }
        // A deck or a state buffer of another length comes before it.
        let short = ran_as(&valid[..valid.len() - 1], 4, STATE_BYTES, marking);
        let long = ran_as(&vec![0; 65_537], 4, STATE_BYTES, marking);
        let buffer = ran_as(&valid, 4, STATE_BYTES - 1, marking);
        for ran in [short, long, buffer] {
            assert_eq!(ran.numbers(), [9, 0, 0], "{marking}");
            assert!(ran.untouched());
        }
    }
    let state = ran_as(&worse, 3, STATE_BYTES, 1621);
    assert_eq!(state.numbers(), [1, 0, 0]);
}
