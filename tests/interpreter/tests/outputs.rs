//! The user's outputs, 02's L1: bits 18-21 of the last executed word. An attempt that executes none
//! keeps them.

mod common;

use common::*;
use interpreter::decks::single;
use interpreter::{attempt, Marking, Outcome, Row, Sample, State};

/// The outputs before an attempt; its word has others.
const BEFORE: u8 = 0x6;

/// The word with these bits 18-21.
fn with_user(word: u32, outputs: u8) -> u32 {
    word | u32::from(outputs) << 18
}

/// All zero but the outputs.
fn before() -> State {
    State {
        outputs: BEFORE,
        ..blank()
    }
}

/// The word is executed, and loads every value of its bits 18-21.
fn loads(word: u32, state: &State, sample: Sample) {
    for outputs in 0..16 {
        let mut state = state.clone();
        let outcome = with(with_user(word, outputs), &[], &mut state, sample);
        let executed = matches!(outcome, Outcome::Done { request, .. } if request >> 16 < 10);
        assert!(executed, "{word:X}");
        assert_eq!(state.outputs, outputs, "{word:X}");
    }
}

/// The attempt comes to this, whatever bits 18-21 of its word are, and keeps the outputs.
fn keeps(word: u32, state: &State, sample: Sample, comes_to: Outcome) {
    for outputs in 0..16 {
        let mut state = state.clone();
        let outcome = with(with_user(word, outputs), &[], &mut state, sample);
        assert_eq!(outcome, comes_to, "{word:X}");
        assert_eq!(state.outputs, BEFORE, "{word:X}");
    }
}

#[test]
fn completed_words_load_them() {
    // JMP, RFS, LL, RTSR, AB, AW, MI, LTR, R, OS, NOP and NOP with all bits of a and b.
    for word in [
        0x0033, 0x0800, 0x6552, 0x7400, 0xA132, 0xA242, 0xEC32, 0xEE32, 0xF832, 0xFE32, 0xFF00,
        0xFFFF,
    ] {
        loads(word, &before(), compute());
        loads(word | 3 << 16, &before(), compute());
    }
    // IB, IW, OW.
    for word in [0xE002, 0xE202, 0xFD32] {
        loads(word, &before(), reply(0x1234));
    }
}

#[test]
fn failed_conditions_load_them() {
    // CMB, CMW, CAB, CAW with C 0, CAWI with ICS 0.
    for word in [0x8432, 0x8742, 0xA432, 0xA532, 0xA642, 0xAE42] {
        loads(word, &before(), compute());
    }
}

#[test]
fn conditional_jumps_load_them_taken_or_not() {
    for code in 0x10..=0x1F {
        for (flags, ics) in [(0x00, false), (0xFF, true)] {
            let state = State {
                flags,
                ics,
                ..before()
            };
            loads(code << 8 | 0x34, &state, compute());
        }
    }
}

#[test]
fn a_wait_keeps_them_and_the_word_after_it_loads_them() {
    let busy = Sample {
        busy: true,
        ..compute()
    };
    for word in [0xE002, 0xE202, 0xFC32, 0xFD32] {
        keeps(word, &before(), compute(), done(10, 0, 1));
    }
    for word in [0xF032, 0xF832, 0xF932, 0xFA32, 0xFB32] {
        keeps(word, &before(), busy, done(10, 0, 1));
        keeps(word, &before(), reply(0), done(10, 0, 1));
    }
    let (word, mut state) = (with_user(0xF832, 9), before());
    with(word, &[], &mut state, busy);
    assert_eq!(state.outputs, BEFORE);
    with(word, &[], &mut state, compute());
    assert_eq!(state.outputs, 9);
}

#[test]
fn compute_low_and_reset_keep_them() {
    keeps(0xFF00, &before(), Sample::default(), done(12, 0, 1));
    for compute in [false, true] {
        let sample = Sample {
            reset: true,
            compute,
            ..Sample::default()
        };
        keeps(0xFF00, &before(), sample, done(11, 0, 1));
    }
}

#[test]
fn refused_attempts_keep_them() {
    let mut state = before();
    let beyond = attempt(&[], &[], &mut state, compute(), Marking::Cp1661b);
    assert_eq!((beyond, state.outputs), (Outcome::Refused(5), BEFORE));
    for (word, number) in [(0x7800, 6), (0xAC22, 6), (0xE442, 8)] {
        keeps(word, &before(), compute(), Outcome::Refused(number));
    }
}

#[test]
fn a_modification_does_not_reach_them() {
    let ones = State {
        modification: Some(0xFFFF),
        ..before()
    };
    loads(0x0000, &ones, compute());
    // MI of all ones, then the word that it modifies.
    let mut state = before();
    state.registers[r(2)] = 0xFF;
    step(with_user(0xEC22, 3), &mut state);
    assert_eq!((state.modification, state.outputs), (Some(0xFFFF), 3));
    step(with_user(0xFF00, 8), &mut state);
    assert_eq!((state.modification, state.outputs), (None, 8));
}

#[test]
fn they_are_the_last_byte_and_at_most_15() {
    for byte in 0..=255 {
        let mut bytes = BLANK;
        bytes[41] = byte;
        let state = State::from_bytes(&bytes);
        assert_eq!(state.is_some(), byte < 16, "{byte}");
        if let Some(state) = state {
            assert_eq!((state.outputs, state.to_bytes()), (byte, bytes));
        }
    }
}

#[test]
fn the_run_hands_them_back() {
    // RESET, a wait, R, COMPUTE low, NOP, and a refused word.
    let lines = [8, 6, 4, 0, 4, 4].map(|lines| [0, 0, lines, 0]);
    let words = [(0, 1), (0xF832, 2), (0xFF00, 12), (0xE442, 15)];
    let words = words.map(|(word, outputs)| with_user(word, outputs));
    let mut state = BLANK;
    state[41] = BEFORE;
    for (samples, outputs) in [
        (0, BEFORE),
        (1, BEFORE),
        (2, BEFORE),
        (3, 2),
        (4, 2),
        (5, 12),
    ] {
        let ran = ran(&deck(&words, &[], &state, &lines[..samples]), 24);
        assert_eq!(ran.numbers()[..2], [0, samples as u32]);
        assert_eq!(ran.state[41], outputs, "{samples}");
    }
    let ran = ran(&deck(&words, &[], &state, &lines), 24);
    assert_eq!((ran.numbers()[0], ran.state[41]), (8, 12));
}

#[test]
fn single_attempts_load_or_keep_them() {
    let (mut loaded, mut kept) = (0, 0);
    for seed in 0..256 * 200 {
        let single = single(seed);
        let rows: Option<Vec<Row>> = single.rows.iter().map(Row::from_bytes).collect();
        let sample = Sample::from_bytes(&single.sample).unwrap();
        let before = State::from_bytes(&single.state).unwrap();
        let mut state = before.clone();
        let rows = rows.unwrap();
        let outcome = attempt(&single.words, &rows, &mut state, sample, single.marking);
        let stored = single.words.get(usize::from(before.lc));
        let own = stored.map_or(before.outputs, |word| (word >> 18) as u8);
        let tells = u32::from(own != before.outputs);
        match outcome {
            Outcome::Done { request, .. } if request >> 16 < 10 => {
                assert_eq!(state.outputs, own, "{seed}");
                loaded += tells;
            }
            _ => {
                assert_eq!(state.outputs, before.outputs, "{seed}");
                kept += tells;
            }
        }
    }
    assert!(loaded > 25_000 && kept > 8_000, "{loaded} {kept}");
}
