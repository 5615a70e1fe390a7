//! Left shifts, 02's L2: V, and the agreement with adding the operand to itself. Right shifts and
//! even codes, which L2 leaves as they were.

mod common;

use common::{blank, compute, done, r, step, with};
use interpreter::decks::single;
use interpreter::{place, Outcome, Row, State};

const V: u8 = 0x20;
/// N Z V C.
const CONDITION: u8 = 0xF0;

/// The state after code `top` with a 2 and b 4, R5:R4 being the operand and R3:R2 something else.
fn after(top: u32, operand: [u8; 2], flags: u8) -> State {
    let mut state = before(operand, flags);
    let cycles = 1 + (top >> 1 & 1);
    assert_eq!(step(top << 8 | 0x42, &mut state), done(0, 0, cycles));
    state
}

fn before(operand: [u8; 2], flags: u8) -> State {
    let mut state = State { flags, ..blank() };
    state.registers[r(2)..r(4)].copy_from_slice(&operand.map(|byte| !byte));
    state.registers[r(4)..r(6)].copy_from_slice(&operand);
    state
}

/// Hands over every operand of some codes, C and the other flags being low and high before. A byte
/// code has the high byte in the next register.
fn each(codes: impl Iterator<Item = u32>, check: impl Fn(u32, [u8; 2], u8)) {
    for top in codes {
        for operand in 0..=0xFFFF_u16 {
            for flags in [0x00, 0x10, 0xEF, 0xFF] {
                check(top, operand.to_le_bytes(), flags);
            }
        }
    }
}

fn odd(codes: impl Iterator<Item = u32>) -> impl Iterator<Item = u32> {
    codes.filter(|top| top % 2 == 1)
}

/// A left shift's word as the add that it agrees with: of a and a.
fn adding(word: u32) -> u32 {
    let top = match word >> 8 & 0xFF {
        // SLBC and SLWC: ABC and AWC.
        top @ 0x88..=0x8B => top - 0x88 + 0xA8,
        // SLB and SLW: AB and AW.
        top => top - 0x8C + 0xA0,
    };
    let a = word & 15;
    word & !0xFFFF | top << 8 | a << 4 | a
}

/// Whether a left shift is executed. Then it comes to the same, in the whole state, as the add where
/// Ra holds what Rb held.
fn agrees(word: u32, rows: &[Row], before: State) -> bool {
    let mut shifted = before.clone();
    let outcome = with(word, rows, &mut shifted, compute());
    if matches!(outcome, Outcome::Refused(_)) {
        return false;
    }
    let register = |designator: u32| place(designator as u8, before.g);
    let (a, b) = (register(word), register(word >> 4));
    let bytes = 1 + (word >> 9 & 1) as usize;
    let mut added = before;
    added.registers.copy_within(b..b + bytes, a);
    let same = with(adding(word), rows, &mut added, compute());
    assert_eq!((same, added), (outcome, shifted), "{word:X}");
    true
}

#[test]
fn a_left_shift_agrees_with_adding_the_operand_to_itself() {
    each(0x88..=0x8F, |top, operand, flags| {
        assert!(agrees(top << 8 | 0x42, &[], before(operand, flags)));
    });
}

#[test]
fn the_agreement_holds_in_all_registers() {
    let mut executed = [0; 8];
    for seed in (0..256 * 400).filter(|seed| matches!(seed % 256, 0x88..=0x8F)) {
        let single = single(seed);
        let rows: Option<Vec<Row>> = single.rows.iter().map(Row::from_bytes).collect();
        let state = State {
            modification: None,
            ..State::from_bytes(&single.state).unwrap()
        };
        if let Some(&word) = single.words.get(usize::from(state.lc)) {
            // 02, L6: the agreement keeps even pairs.
            let word = word & !(0x11 * (word >> 9 & 1));
            executed[seed as usize % 8] += u32::from(agrees(word, &rows.unwrap(), state));
        }
    }
    assert!(executed.iter().min() >= Some(&300), "{executed:?}");
}

#[test]
fn v_of_a_left_shift() {
    each(odd(0x88..=0x8F), |top, operand, flags| {
        let high = top as usize >> 1 & 1;
        let state = after(top, operand, flags);
        let v = state.flags & V != 0;
        // The top two bits are 00, 01, 10, 11.
        let differ = [false, true, true, false][usize::from(operand[high] >> 6)];
        assert_eq!(v, differ, "{top:X} {operand:X?} {flags:X}");
        let sign = state.registers[r(2) + high] & 0x80;
        assert_eq!(v, sign != operand[high] & 0x80);
    });
}

#[test]
fn right_shifts_clear_v() {
    each(odd(0xD8..=0xDF), |top, operand, flags| {
        assert_eq!(after(top, operand, flags).flags & V, 0);
    });
}

#[test]
fn even_codes_differ_in_n_z_v_c_which_they_keep() {
    let shifts = (0x88..=0x8F).chain(0xD8..=0xDF);
    each(odd(shifts), |top, operand, flags| {
        let mut expected = after(top, operand, flags);
        expected.flags = flags & CONDITION | expected.flags & !CONDITION;
        assert_eq!(after(top - 1, operand, flags), expected);
    });
}
