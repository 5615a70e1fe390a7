//! The bench host's entry: refusals of a deck, their order, and what the buffers hold then.

mod common;

use common::{deck, ran, ran_with, ANY, BLANK};
use interpreter::STATE_BYTES;

const COMPUTE: [u8; 4] = [0, 0, 4, 0];
const NOP: u32 = 0xFF00;

/// A deck that is answered 0 with one attempt.
fn valid() -> Vec<u8> {
    deck(&[NOP], &[ANY.0], &BLANK, &[COMPUTE])
}

/// Runs with buffers that fit; a refusal must leave them.
fn refused(deck: &[u8], answer: u32) {
    let ran = ran(deck, 4096);
    assert_eq!(ran.numbers(), [answer, 0, 0]);
    assert!(ran.untouched());
}

fn state_with(bytes: &[(usize, u8)]) -> [u8; STATE_BYTES] {
    let mut state = BLANK;
    for &(at, byte) in bytes {
        state[at] = byte;
    }
    state
}

#[test]
fn nine() {
    assert_eq!(ran(&valid(), 4).numbers(), [0, 1, 1]);
    for length in 0..valid().len() {
        refused(&valid()[..length], 9);
    }
    let mut longer = valid();
    longer.push(0);
    refused(&longer, 9);
    for count in [0, 2] {
        let mut deck = valid();
        deck[24] = count;
        refused(&deck, 9);
    }
    // Two states, really there.
    let mut deck = valid();
    deck[24] = 2;
    deck.splice(26..26, BLANK);
    refused(&deck, 9);
    // Huge counts without their bytes are 9, not 2 or 3.
    for at in [1, 7, 26 + STATE_BYTES + 1] {
        let mut deck = valid();
        deck[at] = 0xFF;
        refused(&deck, 9);
    }
    for length in [0, 41, 43] {
        let ran = ran_with(&valid(), 4, length);
        assert_eq!(ran.numbers(), [9, 0, 0]);
        assert!(ran.untouched());
    }
}

#[test]
fn old_decks_are_nine() {
    // A state of 41 bytes, whatever lies around it: no counts bear its length out.
    for [words, rows, samples] in [
        [0, 0, 0],
        [1, 0, 1],
        [3, 2, 1],
        [0, 1, 16_000],
        [2048, 128, 5],
    ] {
        for byte in [0, 1, 0xFF] {
            let words = vec![NOP; words];
            let old = deck(
                &words,
                &vec![ANY.0; rows],
                &[byte; 41],
                &vec![COMPUTE; samples],
            );
            let ran = ran(&old, 65_536);
            assert_eq!(ran.numbers(), [9, 0, 0]);
            assert!(ran.untouched());
        }
    }
}

#[test]
fn the_longest_deck() {
    // 50 bytes and four for each sample: 65,534 fit, 65,538 do not.
    let longest = deck(&[], &[], &BLANK, &vec![[0; 4]; 16_371]);
    assert_eq!(longest.len(), 65_534);
    assert_eq!(ran(&longest, 65_536).numbers(), [0, 16_371, 16_371]);
    refused(&deck(&[], &[], &BLANK, &vec![[0; 4]; 16_372]), 9);
}

#[test]
fn one() {
    let with = |state: [u8; STATE_BYTES]| deck(&[NOP], &[], &state, &[COMPUTE]);
    let wrong = [26, 29, 31, 36, 38].map(|at| state_with(&[(at, 8)]));
    for state in wrong {
        refused(&with(state), 1);
    }
    refused(&with(state_with(&[(37, 16)])), 1);
    for outputs in [16, 0x80, 0xFF] {
        refused(&with(state_with(&[(41, outputs)])), 1);
    }
    for at in [39, 40] {
        refused(&with(state_with(&[(at, 1), (37, 7)])), 1);
    }
    // A mark with no bits, and the largest that is in range.
    assert_eq!(ran(&with(state_with(&[(37, 8)])), 4).numbers()[0], 0);
    let mut largest = [0xFF; STATE_BYTES];
    for at in [26, 29, 31, 36, 38] {
        largest[at] = 7;
    }
    (largest[37], largest[41]) = (15, 15);
    assert_eq!(ran(&with(largest), 4).numbers(), [5, 0, 0]);
}

#[test]
fn two() {
    // A word that is never reached is tested too, and before the rows.
    let deck_of = |word| deck(&[NOP, word], &[], &BLANK, &[COMPUTE]);
    refused(&deck_of(1 << 22), 2);
    refused(&deck_of(1 << 31), 2);
    assert_eq!(ran(&deck_of((1 << 22) - 1), 4).numbers(), [0, 1, 1]);
    let both = deck(
        &[1 << 22],
        &[ANY.gives(8, 0, 0).0],
        &BLANK,
        &[[0, 0, 32, 0]],
    );
    refused(&both, 2);
}

#[test]
fn three() {
    let wrong = [
        ANY.lc(2048, 0),
        ANY.lc(1, 2),
        ANY.lc(0, 2048),
        ANY.rni(2, 0),
        ANY.rni(0, 1),
        ANY.tr(0x7F, 0x80),
        ANY.tsr(4, 0),
        ANY.tsr(1, 2),
        ANY.interrupts(0x80, 0),
        ANY.interrupts(0x3F, 0x40),
        ANY.gives(0, 2048, 0),
        ANY.gives(8, 0, 0),
        ANY.gives(0, 0, 8),
    ];
    for row in wrong {
        let rows = [ANY.0, row.0];
        refused(&deck(&[NOP], &rows, &BLANK, &[[0, 0, 32, 0]]), 3);
    }
    refused(&deck(&[NOP], &[ANY.0; 129], &BLANK, &[]), 3);
}

#[test]
fn rows_in_range() {
    // Outputs without their lines are legal, and so is every bit in its mask.
    let masked = ANY.lc(2047, 2047).rni(1, 1).tr(255, 255).tsr(3, 3);
    let full = masked.interrupts(127, 127).gives(0, 2047, 7);
    let accepted = deck(&[NOP], &[full.0; 128], &BLANK, &[COMPUTE]);
    assert_eq!(ran(&accepted, 4).numbers(), [0, 1, 1]);
}

#[test]
fn four() {
    // The last sample is tested before the first attempt.
    for wrong in [[0, 0, 32, 0], [0, 0, 4, 16]] {
        refused(&deck(&[0x7800], &[], &BLANK, &[COMPUTE, wrong]), 4);
    }
    let two = deck(&[NOP; 2], &[], &BLANK, &[[0xFF, 0xFF, 4, 15]; 2]);
    let ran_short = ran(&two, 7);
    assert_eq!(ran_short.numbers(), [4, 0, 0]);
    assert!(ran_short.untouched());
    assert_eq!(ran(&two, 8).numbers(), [0, 2, 2]);
}

#[test]
fn the_state_is_tested_before_the_words() {
    let deck = deck(&[1 << 22], &[], &state_with(&[(26, 8)]), &[COMPUTE]);
    refused(&deck, 1);
    let ran = ran_with(&deck, 0, 41);
    assert_eq!(ran.numbers(), [9, 0, 0]);
}

#[test]
fn places_past_the_written_ones_are_untouched() {
    let samples = [[0, 0, 8, 0], COMPUTE, [0, 0, 0, 0], COMPUTE, COMPUTE];
    // RESET, R, COMPUTE low, NOP, and an unlisted word.
    let deck = deck(
        &[0, 0xF832, NOP, 0x7800],
        &[],
        &state_with(&[(12, 0x34), (13, 0x12)]),
        &samples,
    );
    let ran = ran(&deck, 30);
    assert_eq!(ran.numbers(), [6, 4, 4]);
    let written = [11 << 16, 1 << 16 | 0x1234, 12 << 16, 0_u32];
    let written: Vec<u8> = written
        .iter()
        .flat_map(|request| request.to_le_bytes())
        .collect();
    assert_eq!(ran.requests[..16], written);
    assert!(ran.requests[16..].iter().all(|&byte| byte == 0xA5));
    let expected = state_with(&[
        (12, 0x34),
        (13, 0x12),
        (28, 3),
        (34, 0x34),
        (35, 0x12),
        (37, 2),
    ]);
    assert_eq!(ran.state, expected);
}

#[test]
fn a_refusal_at_the_first_attempt_still_writes_the_state() {
    let state = state_with(&[(0, 9), (37, 8), (39, 1)]);
    let ran = ran(&deck(&[], &[], &state, &[COMPUTE]), 4);
    assert_eq!(ran.numbers(), [5, 0, 0]);
    assert_eq!(ran.state, state);
    assert_eq!(ran.requests, [0xA5; 4]);
}
