//! Rows, RR and TSR on the generator's attempts, against the rules field by field.

use interpreter::decks::{single, Single};
use interpreter::{attempt, Outcome, Row, Sample, State};

/// LTA, LRA, LTSR, address and new TSR of the rows that match.
fn translated(single: &Single, state: &State, sample: Sample, word: u32) -> (u8, u16, u8) {
    let (mut lines, mut address, mut tsr) = (0, 0, 0);
    for row in &single.rows {
        let number = |at: usize| u16::from_le_bytes([row[at], row[at + 1]]);
        let equal = |at: usize, actual: u8| actual & row[at] == row[at + 1];
        let byte = if state.tsr < 4 {
            state.tr / 256
        } else {
            state.tr % 256
        };
        let interrupts = sample.interrupts + 16 * state.internal;
        if state.lc & number(0) == number(2)
            && equal(4, (word >> 17) as u8 % 2)
            && equal(6, byte as u8)
            && equal(8, state.tsr % 4)
            && equal(10, interrupts)
        {
            lines |= row[14];
            address |= number(12);
            tsr |= row[15];
        }
    }
    (lines, address, tsr)
}

/// Where a jump or RFS goes, when it is taken.
fn jump(word: u32, state: &State) -> Option<u16> {
    let (top, flags) = (word >> 8 & 0xFF, state.flags);
    let condition = match top & 0xFE {
        0x10 => flags & 0x04 != 0,
        0x12 => flags & 0x01 != 0,
        0x14 => state.ics,
        0x16 => flags & 0x08 != 0,
        0x18 => flags & 0x40 != 0,
        0x1A => flags & 0x10 != 0,
        0x1C => flags & 0x20 != 0,
        _ => flags & 0x80 != 0,
    };
    match top {
        0x00..=0x07 => Some((word % 2048) as u16),
        0x08..=0x0F => Some(state.rr),
        0x10..=0x1F if condition == (top % 2 == 1) => {
            Some(state.lc / 256 * 256 + (word % 256) as u16)
        }
        _ => None,
    }
}

/// LC, RR and TSR after the word is executed.
fn expected(single: &Single, before: &State, sample: Sample, word: u32) -> (u16, u16, u8) {
    let (lines, address, tsr) = translated(single, before, sample, word);
    let next = if before.lc == 2047 { 0 } else { before.lc + 1 };
    let lc = match (jump(word, before), lines & 2 != 0, lines & 1 != 0) {
        (Some(target), _, _) => target,
        (None, true, _) => before.rr,
        (None, false, true) => address,
        _ => next,
    };
    let rr = if word >> 16 & 1 == 1 { next } else { before.rr };
    let tsr = match (word >> 8 & 0xFF, lines & 4 != 0) {
        (0x74, _) => 0,
        (_, true) => tsr,
        _ => before.tsr,
    };
    (lc, rr, tsr)
}

#[test]
fn lc_rr_and_tsr_after_every_executed_attempt() {
    let mut executed = 0;
    for seed in 0..256 * 200 {
        let single = single(seed);
        let rows: Option<Vec<Row>> = single.rows.iter().map(Row::from_bytes).collect();
        let before = State::from_bytes(&single.state).unwrap();
        let sample = Sample::from_bytes(&single.sample).unwrap();
        let mut state = before.clone();
        let rows = rows.unwrap();
        match attempt(&single.words, &rows, &mut state, sample, single.marking) {
            Outcome::Done { request, .. } if request >> 16 < 10 => executed += 1,
            _ => continue,
        }
        let stored = single.words[usize::from(before.lc)];
        let word = stored | u32::from(before.modification.unwrap_or(0));
        let wanted = expected(&single, &before, sample, word);
        assert_eq!((state.lc, state.rr, state.tsr), wanted, "{seed}");
    }
    assert!(executed > 30_000, "{executed}");
}
