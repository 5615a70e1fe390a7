//! Cases worked out by hand: those of "Checked by hand", the slips that look right, and the
//! sentences that are easy to misread.

mod common;

use common::*;
use interpreter::{Marking, Outcome, Sample, State};

/// N Z V C NB ZB C4 C8 as they stand in the flag byte.
const N: u8 = 0x80;
const Z: u8 = 0x40;
const V: u8 = 0x20;
const C: u8 = 0x10;
const NB: u8 = 0x08;
const ZB: u8 = 0x04;
const C4: u8 = 0x02;
const C8: u8 = 0x01;

const COMPUTE: [u8; 4] = [0, 0, 4, 0];

mod checked_by_hand {
    use super::*;

    #[test]
    fn add_7f_and_01() {
        assert_eq!(bytes(0xA132, 0x7F, 0x01, 0), (0x80, N | V | NB | C4));
    }

    #[test]
    fn subtract_01_from_00() {
        assert_eq!(bytes(0xB132, 0x00, 0x01, 0), (0xFF, N | C | NB));
    }

    #[test]
    fn subtract_01_from_80() {
        assert_eq!(bytes(0xB132, 0x80, 0x01, 0), (0x7F, V | C8));
    }

    #[test]
    fn subtract_ff_from_00_with_c() {
        assert_eq!(bytes(0xB932, 0x00, 0xFF, C), (0x00, Z | C | ZB));
    }

    #[test]
    fn complement_of_80_and_of_00() {
        assert_eq!(bytes(0x9932, 0x55, 0x80, 0), (0x80, N | V | C | NB | C4));
        assert_eq!(bytes(0x9932, 0x55, 0x00, 0), (0x00, Z | ZB | C4 | C8));
    }

    #[test]
    fn word_adds() {
        assert_eq!(words(0xA342, 0x00FF, 0x0001, 0xFF), (0x0100, 0));
        let flags = N | V | NB | C4;
        assert_eq!(words(0xA342, 0x7FFF, 0x0001, 0), (0x8000, flags));
    }

    #[test]
    fn shift_right_word_of_0101() {
        assert_eq!(words(0xDF42, 0, 0x0101, 0), (0x0080, N | C | NB | C8));
    }

    #[test]
    fn shift_left_byte_of_40() {
        // As 02, L2 has it.
        assert_eq!(bytes(0x8D32, 0, 0x40, 0), (0x80, N | V | NB));
    }

    #[test]
    fn designators_0_and_1() {
        let mut state = blank();
        state.g = 6;
        step(0x6AB0, &mut state);
        assert_eq!(state.registers[r(0xC)], 0xAB);
        let mut state = blank();
        state.g = 5;
        step(0x6AB1, &mut state);
        assert_eq!(state.registers[0xB], 0xAB);
    }

    #[test]
    fn refused_and_executed_words() {
        let outcome = |word| step(word, &mut blank());
        // As 02, L6 has A232.
        for word in [0xA232, 0xA222] {
            assert_eq!(outcome(word), done(0, 0, 2));
        }
        for word in [0x7800, 0xAD32, 0xAC22] {
            assert_eq!(outcome(word), Outcome::Refused(6));
        }
        assert_eq!(outcome(0xE442), Outcome::Refused(8));
        assert_eq!(outcome(0xE432), done(9, 0, 1));
    }

    #[test]
    fn return_with_bit_16() {
        let mut state = at(5, 9);
        assert_eq!(step(0x1_0800, &mut state), done(0, 0, 2));
        assert_eq!((state.lc, state.rr), (9, 6));
    }

    #[test]
    fn jump_keeps_its_own_page() {
        let mut state = at(0x1FF, 0);
        assert_eq!(step(0x1810, &mut state), done(0, 0, 2));
        assert_eq!(state.lc, 0x110);
    }

    #[test]
    fn nop_at_2047() {
        let mut state = at(2047, 0);
        assert_eq!(step(0xFF00, &mut state), done(0, 0, 1));
        assert_eq!(state.lc, 0);
    }

    #[test]
    fn words_2048_and_2049() {
        let full = deck(&[0xFF00; 2048], &[], &BLANK, &[COMPUTE]);
        assert_eq!(ran(&full, 4).numbers(), [0, 1, 1]);
        let over = deck(&[0xFF00; 2049], &[], &BLANK, &[COMPUTE]);
        let ran = ran(&over, 4);
        assert_eq!(ran.numbers(), [2, 0, 0]);
        assert!(ran.untouched());
    }

    #[test]
    fn no_samples() {
        let mut state = BLANK;
        state[0] = 0x77;
        let ran = ran(&deck(&[], &[], &state, &[]), 0);
        assert_eq!(ran.numbers(), [0, 0, 0]);
        assert_eq!(ran.state, state);
    }

    #[test]
    fn the_deck_program_s_example() {
        let mut state = BLANK;
        (state[r(2)], state[r(3)]) = (255, 1);
        let ran = ran(&deck(&[0xA132], &[], &state, &[COMPUTE]), 4);
        assert_eq!(ran.numbers(), [0, 1, 1]);
        assert_eq!([ran.state[28], ran.state[29], ran.state[27]], [1, 0, 87]);
    }
}

mod slips_that_look_right {
    use super::*;

    #[test]
    fn compare_word_stores_nothing() {
        let (value, flags) = words(0xB742, 0x1234, 0x1234, 0);
        assert_eq!((value, flags), (0x1234, Z | ZB | C4 | C8));
    }

    #[test]
    fn c8_is_not_the_borrow() {
        assert_eq!(bytes(0xB132, 5, 3, 0).1 & (C | C8), C8);
        assert_eq!(bytes(0xB132, 3, 5, 0).1 & (C | C8), C);
    }

    #[test]
    fn zb_sees_both_bytes() {
        // High byte 0, low byte not; then low byte 0, high byte not.
        assert_eq!(words(0x8342, 0, 0x0055, 0).1 & (Z | ZB), 0);
        assert_eq!(words(0x8342, 0, 0x5500, 0).1 & (Z | ZB), 0);
        assert_eq!(words(0xA342, 0x0001, 0x00FF, 0).1 & (Z | ZB), 0);
        assert_eq!(words(0xA342, 0x8000, 0x8000, 0).1 & (Z | ZB), Z | ZB);
    }

    #[test]
    fn right_shift_begins_at_the_high_byte() {
        assert_eq!(words(0xDF42, 0, 0x8001, 0), (0x4000, C | C8));
        assert_eq!(words(0xDB42, 0, 0x0100, C), (0x8080, N | NB));
    }

    #[test]
    fn bit_16_is_no_return() {
        let mut state = at(5, 9);
        step(0x1_FF00, &mut state);
        assert_eq!((state.lc, state.rr), (6, 6));
    }

    #[test]
    fn a_failed_condition_changes_registers_and_flags_not_at_all() {
        for word in [0x8532, 0xA532] {
            assert_eq!(bytes(word, 0x12, 0x80, Z | V | NB), (0x12, Z | V | NB));
        }
        for word in [0x8742, 0xA742, 0xAF42] {
            assert_eq!(words(word, 0x12, 0x8000, Z | V | NB), (0x12, Z | V | NB));
        }
    }

    #[test]
    fn rr_is_read_before_bit_16_changes_it() {
        let row = ANY.gives(2, 0, 0);
        let mut state = at(5, 9);
        with(0x1_FF00, &[row.row()], &mut state, compute());
        assert_eq!((state.lc, state.rr), (9, 6));
    }
}

mod attempts {
    use super::*;

    fn busy_state() -> State {
        State {
            registers: std::array::from_fn(|at| at as u8 + 1),
            g: 3,
            flags: 0xA5,
            lc: 7,
            rr: 300,
            tr: 0x1234,
            m: 0x5679,
            tsr: 6,
            ics: true,
            sync: true,
            iack: true,
            internal: 5,
            modification: Some(0x0101),
            outputs: 0xA,
        }
    }

    #[test]
    fn reset_wins_over_compute_low_and_over_refusals() {
        let everything = ANY.gives(7, 99, 1);
        for compute in [false, true] {
            let mut state = busy_state();
            let sample = Sample {
                reset: true,
                compute,
                ..reply(0xFFFF)
            };
            let outcome = with(0x1_7800, &[everything.row()], &mut state, sample);
            assert_eq!(outcome, done(11, 0, 1));
            let expected = State {
                lc: 1,
                sync: false,
                iack: false,
                modification: None,
                ..busy_state()
            };
            assert_eq!(state, expected);
        }
    }

    #[test]
    fn compute_low_changes_nothing_and_fetches_nothing() {
        let mut state = busy_state();
        let outcome =
            interpreter::attempt(&[], &[], &mut state, Sample::default(), Marking::Cp1661b);
        assert_eq!(outcome, done(12, 0, 1));
        assert_eq!(state, busy_state());
    }

    #[test]
    fn refusals_leave_the_state() {
        for (word, number) in [(0x7800, 6), (0xE382, 8)] {
            let mut state = State {
                modification: Some(0),
                ..busy_state()
            };
            let before = state.clone();
            assert_eq!(step(word, &mut state), Outcome::Refused(number));
            assert_eq!(state, before);
        }
        let mut state = busy_state();
        let outcome = interpreter::attempt(&[0; 7], &[], &mut state, compute(), Marking::Cp1661b);
        assert_eq!(outcome, Outcome::Refused(5));
        assert_eq!(state, busy_state());
    }

    #[test]
    fn refusal_8_comes_before_waiting_whatever_a_is() {
        let outcome = |word| step(word, &mut blank());
        for word in [0xE282, 0xE283, 0xE083, 0xE443] {
            assert_eq!(outcome(word), Outcome::Refused(8));
        }
        for word in [0xE272, 0xE273, 0xE073] {
            assert_eq!(outcome(word), done(10, 0, 1));
        }
        for word in [0xE6F2, 0xE6F3] {
            assert_eq!(outcome(word), done(9, 0, 2));
        }
    }

    #[test]
    fn waits_change_nothing_and_cost_one() {
        let everything = ANY.gives(7, 99, 1);
        let unmodified = State {
            modification: Some(0),
            ..busy_state()
        };
        let lines = [(false, false), (false, true), (true, false), (true, true)];
        for top in 0xE0..=0xFF_u32 {
            for (reply, busy) in lines {
                let waits = match top {
                    0xE0..=0xE3 | 0xFC | 0xFD => !reply,
                    0xF0..=0xFB => reply || busy,
                    0xE8..=0xEB => continue,
                    _ => false,
                };
                let sample = Sample {
                    reply,
                    busy,
                    ..compute()
                };
                let mut state = unmodified.clone();
                let rows = [everything.row()];
                let outcome = with(0x1_0022 | top << 8, &rows, &mut state, sample);
                assert_eq!(outcome == done(10, 0, 1), waits, "{top:X}");
                assert_eq!(state == unmodified, waits, "{top:X}");
            }
        }
    }

    #[test]
    fn the_modification_decides_refusals_waiting_and_execution() {
        // E072 under 0080 hex has option F.
        let mut state = modified(0x0080);
        assert_eq!(step(0xE072, &mut state), Outcome::Refused(8));
        assert_eq!(state.modification, Some(0x0080));
        // LL 0 to R2 under 0550 hex is LL 55 to R2; then it is used up.
        let mut state = modified(0x0550);
        assert_eq!(step(0x6002, &mut state), done(0, 0, 1));
        assert_eq!((state.registers[r(2)], state.modification), (0x55, None));
        // E000 under 1000 hex is F0, which waits for other lines; the wait keeps it.
        let mut state = modified(0x1000);
        assert_eq!(with(0xE000, &[], &mut state, reply(0)), done(10, 0, 1));
        assert_eq!(state.modification, Some(0x1000));
        assert_eq!(step(0xE000, &mut state), done(1, 0, 1));
        assert_eq!(state.modification, None);
    }

    #[test]
    fn modify_sets_the_next_and_uses_the_old_up() {
        let mut state = modified(0x0030);
        (state.registers[r(2)], state.registers[r(3)]) = (0x34, 0x12);
        assert_eq!(step(0xEC02, &mut state), done(0, 0, 1));
        assert_eq!(state.modification, Some(0x1234));
        let mut state = blank();
        step(0xED45, &mut state);
        assert_eq!(state.modification, Some(0));
    }

    #[test]
    fn jumps() {
        let lc_after = |word, flags, ics| {
            let mut state = State {
                lc: 0x2FF,
                flags,
                ics,
                ..blank()
            };
            assert_eq!(step(word, &mut state), done(0, 0, 2));
            state.lc
        };
        assert_eq!(lc_after(0x07FE, 0, false), 0x7FE);
        assert_eq!(lc_after(0x0FFE, 0, false), 0);
        let flags = [ZB, C8, 0, NB, Z, C, V, N];
        for (at, flag) in (0..).zip(flags) {
            let ics = flag == 0;
            let (set, clear) = (flag, !flag * u8::from(!ics));
            for (word, taken) in [(0x1034, false), (0x1134, true)] {
                let word = word + (at << 9);
                let next = |taken| if taken { 0x234 } else { 0x300 };
                assert_eq!(lc_after(word, set, ics), next(taken), "{word:X}");
                assert_eq!(lc_after(word, clear, false), next(!taken), "{word:X}");
            }
        }
    }

    #[test]
    fn bit_16_loads_rr_on_every_executed_word() {
        for (word, lc) in [
            (0x1_0003, 3),
            (0x1_1810, 0x10),
            (0x1_1910, 0),
            (0x1_A532, 0),
        ] {
            let mut state = at(if lc == 0 { 2047 } else { 5 }, 9);
            step(word, &mut state);
            let rr = if lc == 0 { 0 } else { 6 };
            assert_eq!((state.lc, state.rr), (lc, rr));
        }
    }
}

mod rows {
    use super::*;

    #[test]
    fn lra_wins_over_lta_and_a_taken_jump_over_both() {
        let lc_after = |word, lines| {
            let mut state = at(0, 9);
            let row = ANY.gives(lines, 99, 0);
            with(word, &[row.row()], &mut state, compute());
            state.lc
        };
        assert_eq!(lc_after(0xFF00, 3), 9);
        assert_eq!(lc_after(0xFF00, 2), 9);
        assert_eq!(lc_after(0xFF00, 1), 99);
        assert_eq!(lc_after(0xFF00, 4), 1);
        assert_eq!(lc_after(0x0033, 3), 0x33);
        assert_eq!(lc_after(0x1833, 1), 0x33);
        assert_eq!(lc_after(0x1933, 1), 99);
        assert_eq!(lc_after(0x0800, 1), 9);
    }

    #[test]
    fn outputs_are_ored_output_by_output() {
        let rows = [
            ANY.gives(1, 0x101, 1).row(),
            ANY.gives(4, 0x010, 2).row(),
            ANY.gives(0, 0x400, 4).row(),
            // One that does not match.
            ANY.lc(1, 1).gives(7, 0x00E, 0).row(),
        ];
        let mut state = blank();
        with(0xFF00, &rows, &mut state, compute());
        assert_eq!((state.lc, state.tsr), (0x511, 7));
    }

    #[test]
    fn ltsr_loads_on_taken_jumps_and_failed_conditions_but_rtsr_wins() {
        let row = ANY.gives(4, 0, 5);
        for (word, tsr) in [(0x0010, 5), (0xA532, 5), (0xFF00, 5), (0x7400, 0)] {
            let mut state = blank();
            state.tsr = 2;
            with(word, &[row.row()], &mut state, compute());
            assert_eq!(state.tsr, tsr, "{word:X}");
        }
    }

    /// Whether a row matches, seen by LTA.
    fn matches(row: Fields, word: u32, state: &State) -> bool {
        let sample = Sample {
            interrupts: 6,
            ..compute()
        };
        let mut state = state.clone();
        with(word, &[row.gives(1, 0x555, 0).row()], &mut state, sample);
        state.lc == 0x555
    }

    /// TR AB12, I4 and I6; samples have I1 and I2.
    fn seen(tsr: u8) -> State {
        let mut state = at(0x123, 0);
        (state.tr, state.tsr, state.internal) = (0xAB12, tsr, 5);
        state
    }

    #[test]
    fn rows_see_what_their_masks_let_through() {
        let yes = |row, word| assert!(matches(row, word, &seen(2)));
        let no = |row, word| assert!(!matches(row, word, &seen(2)));
        yes(ANY, 0xFF00);
        yes(ANY, 0x2_FF00);
        yes(ANY.lc(0x7FF, 0x123), 0xFF00);
        yes(ANY.lc(0x020, 0x020), 0xFF00);
        no(ANY.lc(0x7FF, 0x124), 0xFF00);
        yes(ANY.rni(1, 1), 0x2_FF00);
        no(ANY.rni(1, 1), 0xFF00);
        no(ANY.rni(1, 0), 0x2_FF00);
        yes(ANY.tr(0xFF, 0xAB), 0xFF00);
        no(ANY.tr(0xFF, 0x12), 0xFF00);
        yes(ANY.tsr(3, 2), 0xFF00);
        no(ANY.tsr(1, 1), 0xFF00);
        yes(ANY.interrupts(0x7F, 0x56), 0xFF00);
        no(ANY.interrupts(0x60, 0x20), 0xFF00);
        no(ANY.lc(0x7FF, 0x123).tsr(3, 3), 0xFF00);
    }

    #[test]
    fn rows_see_the_state_before_the_attempt() {
        // RTSR, LTR and SI come too late for this attempt.
        assert!(matches(ANY.tsr(3, 2), 0x7400, &seen(2)));
        assert!(matches(ANY.tr(0xFF, 0xAB), 0xEE22, &seen(2)));
        assert!(matches(ANY.interrupts(0x20, 0), 0x7120, &seen(2)));
    }

    #[test]
    fn tsr_bit_2_selects_the_byte_and_is_not_matched() {
        assert!(matches(ANY.tr(0xFF, 0x12).tsr(3, 2), 0xFF00, &seen(6)));
    }

    #[test]
    fn a_waiting_modification_does_not_reach_bit_17() {
        assert!(matches(ANY.rni(1, 0), 0xFF00, &modified(0xFFFF)));
    }
}

mod flags {
    use super::*;

    #[test]
    fn even_codes_set_the_status_only() {
        assert_eq!(bytes(0xA032, 0xFF, 0x01, N | V), (0, N | V | ZB | C4 | C8));
        assert_eq!(words(0xB242, 0, 1, Z), (0xFFFF, Z | NB));
        assert_eq!(bytes(0x9C32, 0, 0x0F, V | C4 | C8), (0xF0, V | NB));
    }

    #[test]
    fn ones_complement() {
        let before = V | C4 | C8;
        assert_eq!(bytes(0x9D32, 0, 0xFF, before), (0x00, Z | C | ZB));
        assert_eq!(words(0x9F42, 0, 0x0FFF, before), (0xF000, N | C | NB));
    }

    #[test]
    fn literals_touch_the_status_only() {
        let all = N | Z | V | C;
        let literal = |word, r2, flags| bytes(word, r2, 0, flags);
        assert_eq!(literal(0x2012, 0xFF, all), (0x00, all | ZB | C4 | C8));
        assert_eq!(literal(0x2012, 0x7F, 0), (0x80, NB | C4));
        assert_eq!(literal(0x3012, 0x00, C4), (0x00, NB | C4));
        assert_eq!(literal(0x3552, 0x55, C8), (0x55, ZB | C8));
        assert_eq!(literal(0x40F2, 0xF0, NB | C4), (0x00, ZB | C4));
        assert_eq!(literal(0x5802, 0x81, C8), (0x81, NB | C8));
        assert_eq!(literal(0x6FF2, 0x00, ZB | C4 | V), (0xFF, V | NB | C4));
    }

    #[test]
    fn logic_keeps_carries_and_clears_v() {
        let carries = C | C4 | C8;
        for (word, value) in [(0xC1, 0x80), (0xC9, 0xF1), (0xCD, 0x71), (0xD1, 0x40)] {
            let (got, flags) = bytes(word << 8 | 0x32, 0xC0, 0xB1, carries | V);
            assert_eq!((got, flags & (V | carries)), (value, carries));
        }
        assert_eq!(bytes(0xC532, 0xC0, 0xB1, carries | V).0, 0xC0);
        assert_eq!(words(0xC742, 0x00C0, 0xB100, V).1, Z | ZB);
        assert_eq!(words(0xD342, 0xFFFF, 0x00FF, 0), (0xFF00, N | NB));
    }

    #[test]
    fn conditional_moves_and_adds() {
        assert_eq!(bytes(0x8532, 0, 0x80, C | V), (0x80, N | C | NB));
        // The carry that lets CAB through is not added.
        assert_eq!(bytes(0xA532, 0x01, 0x01, C), (0x02, 0));
        assert_eq!(words(0xA742, 0x0001, 0xFFFF, C), (0, Z | C | ZB | C4 | C8));
        let mut state = State {
            ics: true,
            ..blank()
        };
        state.registers[r(2)] = 7;
        step(0xAF22, &mut state);
        assert_eq!(state.registers[r(2)], 14);
    }

    #[test]
    fn carry_enters_the_first_cycle_only() {
        assert_eq!(words(0xAB42, 0x00FF, 0x0000, C), (0x0100, 0));
        assert_eq!(words(0xBB42, 0x0100, 0x0000, C).0, 0x00FF);
        assert_eq!(words(0x8B42, 0, 0x4080, C), (0x8101, N | V | NB));
        assert_eq!(bytes(0xD932, 0, 0x01, C), (0x80, N | C | NB | C8));
    }

    #[test]
    fn shift_left_takes_c4_from_bit_3() {
        assert_eq!(bytes(0x8D32, 0, 0x88, 0), (0x10, V | C | C4 | C8));
        // Of a word, from the high byte.
        assert_eq!(words(0x8F42, 0, 0x0888, 0), (0x1110, C4));
        assert_eq!(words(0x8F42, 0, 0x8000, 0), (0, Z | V | C | ZB | C8));
    }

    #[test]
    fn conditional_increment_and_decrement_always_execute() {
        let one = |word, r2, flags| bytes(word, r2, 0, flags);
        assert_eq!(one(0x76F2, 0xFF, C8 | Z), (0x00, Z | ZB | C4 | C8));
        assert_eq!(one(0x7602, 0x80, C4), (0x80, NB));
        assert_eq!(one(0x7702, 0x00, 0), (0xFF, NB));
        assert_eq!(one(0x7702, 0x10, C8 | C), (0x10, C | C4 | C8));
    }

    #[test]
    fn load_condition_flags() {
        for b in 0..16_u8 {
            let word = 0x7302 | u32::from(b) << 4;
            assert_eq!(bytes(word, 0xFF, 0, 0).1, b << 4);
            assert_eq!(bytes(word, 0x00, 0, 0xFF).1, !(b << 4));
        }
        assert_eq!(bytes(0x7382, 0x8F, 0, 0).1, N);
        assert_eq!(bytes(0x7312, 0x10, 0, 0).1, C);
    }

    #[test]
    fn copy_condition_flags() {
        assert_eq!(bytes(0x72F2, 0, 0, 0x5A), (0x5A, 0x5A));
    }

    #[test]
    fn decrement_and_increment() {
        assert_eq!(bytes(0xBD32, 9, 0x80, 0), (0x7F, V | C8));
        assert_eq!(bytes(0xBD32, 9, 0x00, 0), (0xFF, N | C | NB));
        assert_eq!(words(0xBF42, 9, 0x0100, 0), (0x00FF, C4 | C8));
        assert_eq!(words(0xBF42, 9, 0x8000, 0).1 & V, V);
        assert_eq!(bytes(0x9532, 9, 0xFE, 0), (0x00, Z | C | ZB | C4 | C8));
        assert_eq!(words(0x9742, 9, 0x00FE, 0), (0x0100, 0));
        assert_eq!(words(0x9342, 9, 0x7FFF, 0), (0x8000, N | V | NB | C4));
        assert_eq!(words(0x9B42, 9, 0x0001, 0), (0xFFFF, N | C | NB));
        assert_eq!(words(0x9B42, 9, 0x8000, 0).1 & (V | C), V | C);
    }
}

/// 02, L6: the high byte's designator is the low one's with its lowest bit inverted, and each cycle
/// reads what the one before it wrote.
mod odd_pairs {
    use super::*;

    /// R2, R3 and the flag byte after a word on pairs of these two registers.
    fn crosswise(word: u32, r2: u8, r3: u8, flags: u8) -> (u8, u8, u8) {
        let mut state = blank();
        (state.registers[r(2)], state.registers[r(3)]) = (r2, r3);
        state.flags = flags;
        assert_eq!(step(word, &mut state), done(0, 0, 2));
        (state.registers[r(2)], state.registers[r(3)], state.flags)
    }

    #[test]
    fn the_high_byte_of_an_odd_pair_is_below() {
        // R2:R3 and R4:R5, 01FF and 0001.
        let mut state = blank();
        state.registers[r(2)..r(6)].copy_from_slice(&[0x01, 0xFF, 0x00, 0x01]);
        assert_eq!(step(0xA353, &mut state), done(0, 0, 2));
        assert_eq!(state.registers[r(2)..r(6)], [0x02, 0x00, 0x00, 0x01]);
        assert_eq!(state.flags, 0);
        // R5:R4 to R2:R3.
        state.registers[r(2)..r(6)].copy_from_slice(&[0x55, 0xAA, 0x34, 0x12]);
        state.lc = 0;
        assert_eq!(step(0x8243, &mut state), done(0, 0, 2));
        assert_eq!(state.registers[r(2)..r(6)], [0x12, 0x34, 0x34, 0x12]);
    }

    #[test]
    fn a_crosswise_move_leaves_one_byte_in_both() {
        assert_eq!(crosswise(0x8332, 0x12, 0x80, C), (0x80, 0x80, N | C | NB));
        assert_eq!(crosswise(0x8323, 0x12, 0x80, V), (0x12, 0x12, 0));
        assert_eq!(crosswise(0x8332, 0x12, 0x00, 0), (0, 0, Z | ZB));
    }

    #[test]
    fn crosswise_adds_and_subtracts() {
        // F0+20 is 10 and a carry; 20+10+1 is 31.
        assert_eq!(crosswise(0xA332, 0xF0, 0x20, 0), (0x10, 0x31, 0));
        // 20+F0 is 10 and a carry; F0+10+1 is 01 and a carry.
        assert_eq!(crosswise(0xA323, 0xF0, 0x20, 0), (0x01, 0x10, C | C8));
        // 05-03 is 02; 03-02 is 01.
        assert_eq!(crosswise(0xB332, 0x05, 0x03, 0), (0x02, 0x01, C4 | C8));
        // 03-05 is FE and a borrow; 05-FE-1 is 06 and a borrow.
        assert_eq!(crosswise(0xB332, 0x03, 0x05, 0), (0xFE, 0x06, C));
    }

    #[test]
    fn zero_is_seen_in_the_results_not_in_what_stays() {
        // FF+01 is 00 and a carry; 01+00+1 is 02.
        assert_eq!(crosswise(0xA332, 0xFF, 0x01, 0), (0x00, 0x02, 0));
        // 55-55 is 00; 55-00 is 55.
        assert_eq!(crosswise(0xB332, 0x55, 0x55, 0), (0x00, 0x55, C4 | C8));
        // 80 gives 00 and a bit; 00 with it gives 01.
        assert_eq!(crosswise(0x8F32, 0x55, 0x80, 0), (0x00, 0x01, 0));
    }

    #[test]
    fn crosswise_left_shifts() {
        // C1 gives 82 and a bit; 82 with it gives 05 and a bit.
        assert_eq!(crosswise(0x8F32, 0x55, 0xC1, 0), (0x82, 0x05, V | C | C8));
        // 40 with C gives 81, and that 02 and a bit.
        assert_eq!(crosswise(0x8B23, 0x40, 0x55, C), (0x02, 0x81, V | C | C8));
    }

    #[test]
    fn crosswise_right_shifts_begin_with_the_high_designator() {
        // R3 from R2: 03 gives 01 and a bit; R2 from R3: 01 with it gives 80 and a bit.
        let flags = N | C | NB | C8;
        assert_eq!(crosswise(0xDF32, 0x03, 0x55, 0), (0x80, 0x01, flags));
        // R2 from R3: 04 with C gives 82; R3 from R2: 41.
        assert_eq!(crosswise(0xDB23, 0x55, 0x04, C), (0x82, 0x41, 0));
    }

    #[test]
    fn compares_tests_and_failed_conditions_write_nothing() {
        // 01-02 is FF and a borrow; 02-01-1 is 00.
        assert_eq!(crosswise(0xB732, 0x01, 0x02, 0), (0x01, 0x02, C4 | C8));
        // 05-03 is 02; 03-05 is FE and a borrow.
        assert_eq!(crosswise(0xB723, 0x03, 0x05, 0), (0x03, 0x05, N | C | NB));
        assert_eq!(crosswise(0xC732, 0x01, 0x02, V), (0x01, 0x02, Z | ZB));
        for word in [0x8732, 0xA723, 0xAF33] {
            assert_eq!(crosswise(word, 0x12, 0x34, Z | V), (0x12, 0x34, Z | V));
        }
    }

    #[test]
    fn through_g() {
        // a, b, G, and the places of Ra and Rb, each the other's high byte.
        for (designators, g, a, b) in [
            (0x01, 2, 5, 4),
            (0x10, 2, 4, 5),
            (0xD0, 6, r(0xC), r(0xD)),
            (0xC1, 6, r(0xD), r(0xC)),
            (0x1C, 6, r(0xC), r(0xD)),
            (0x0F, 7, r(0xF), r(0xE)),
            (0xE1, 7, r(0xF), r(0xE)),
        ] {
            let mut state = State { g, ..blank() };
            (state.registers[a], state.registers[b]) = (0xF0, 0x20);
            step(0xA300 | designators, &mut state);
            let got = [state.registers[a], state.registers[b]];
            assert_eq!((got, state.flags), ([0x10, 0x31], 0), "{designators:X}");
        }
        // With G 5 designator 0 is GA: no overlap with RD.
        let mut state = State { g: 5, ..blank() };
        state.registers[0xA..0xC].copy_from_slice(&[0xF0, 0x00]);
        state.registers[r(0xC)..r(0xE)].copy_from_slice(&[0x02, 0x20]);
        step(0xA3D0, &mut state);
        assert_eq!(state.registers[0xA..0xC], [0x10, 0x03]);
    }

    #[test]
    fn inputs() {
        let after = |word, g| {
            let mut state = State { g, ..blank() };
            with(word, &[], &mut state, reply(0x8150));
            assert_eq!(state.flags, N | NB);
            state.registers
        };
        assert_eq!(after(0xE303, 0)[r(2)..r(4)], [0x81, 0x50]);
        assert_eq!(after(0xE7F5, 0)[r(4)..r(6)], [0x81, 0x50]);
        assert_eq!(after(0xE301, 3)[6..8], [0x81, 0x50]);
        // The pair is named by the G before, not by the one loaded.
        assert_eq!(after(0xE311, 7)[r(0xE)..], [0x81, 0x50]);
    }

    #[test]
    fn ltr_and_the_f_codes_have_no_pairs() {
        let mut state = blank();
        (state.registers[r(3)], state.registers[r(5)]) = (0xFF, 0x12);
        assert_eq!(step(0xEE53, &mut state), done(0, 0, 2));
        assert_eq!(state.tr, 0x12FF);
        state.lc = 0;
        assert_eq!(step(0xF253, &mut state), done(1, 0x12FF, 2));
        assert_eq!(state.registers[r(2)..r(6)], [0, 0x00, 0, 0x13]);
    }
}

mod control {
    use super::*;

    #[test]
    fn internal_interrupts() {
        let after = |word, internal| {
            let mut state = State {
                internal,
                ..blank()
            };
            step(word, &mut state);
            state.internal
        };
        assert_eq!(after(0x7050, 7), 2);
        assert_eq!(after(0x7085, 7), 7);
        assert_eq!(after(0x71D0, 0), 5);
        assert_eq!(after(0x7180, 0), 0);
    }

    #[test]
    fn g_and_tr() {
        let mut state = blank();
        (state.registers[r(2)], state.registers[r(3)]) = (0xFE, 0x12);
        step(0x75F2, &mut state);
        assert_eq!(state.g, 6);
        state.lc = 0;
        assert_eq!(step(0xEF32, &mut state), done(0, 0, 2));
        assert_eq!((state.tr, state.flags), (0x12FE, 0));
    }

    #[test]
    fn g_names_registers_by_the_g_before() {
        // LGL from G1 (a 1, G 0), then a 1 is G5 by the new G.
        let mut state = blank();
        state.registers[1] = 2;
        step(0x7501, &mut state);
        step(0x6991, &mut state);
        assert_eq!((state.registers[1], state.registers[5]), (2, 0x99));
    }
}

mod bus {
    use super::*;

    fn addressed(ra: u8, rb: u8) -> State {
        let mut state = blank();
        (state.registers[r(2)], state.registers[r(3)]) = (ra, rb);
        state
    }

    #[test]
    fn reads_and_writes() {
        for (word, kind, iack) in [
            (0xF832, 1, false),
            (0xF932, 2, false),
            (0xFA32, 3, true),
            (0xFB32, 4, true),
        ] {
            let mut state = addressed(0x34, 0x12);
            state.flags = 0x5A;
            assert_eq!(step(word, &mut state), done(kind, 0x1234, 1));
            assert_eq!((state.m, state.sync, state.iack), (0x1234, true, iack));
            assert_eq!(state.flags, 0x5A);
        }
        // R leaves IACK as it is.
        let mut state = State {
            iack: true,
            ..blank()
        };
        step(0xF832, &mut state);
        assert!(state.iack && state.sync);
    }

    #[test]
    fn outputs() {
        for (word, kind, drops) in [(0xFC32, 7, true), (0xFD32, 6, true), (0xFE32, 8, false)] {
            let mut state = State {
                sync: true,
                iack: true,
                ..addressed(0x34, 0x12)
            };
            let outcome = with(word, &[], &mut state, reply(0xFFFF));
            assert_eq!(outcome, done(kind, 0x1234, 1));
            assert_eq!((state.m, state.sync, state.iack), (0x1234, !drops, !drops));
        }
    }

    #[test]
    fn increments() {
        let after = |word: u32, ra: u8, rb: u8| {
            let mut state = addressed(ra, rb);
            state.flags = N | Z | V | C;
            let value = u32::from(rb) << 8 | u32::from(ra);
            let (kind, cycles) = (1 + (word >> 8 & 1), 1 + (word >> 9 & 1));
            assert_eq!(step(word, &mut state), done(kind, value, cycles));
            assert_eq!(u32::from(state.m), value);
            assert_eq!(state.flags & 0xF0, N | Z | V | C);
            (
                state.registers[r(2)],
                state.registers[r(3)],
                state.flags & 15,
            )
        };
        assert_eq!(after(0xF032, 0xFF, 0x12), (0x00, 0x12, ZB | C4 | C8));
        assert_eq!(after(0xF132, 0x7F, 0x12), (0x80, 0x12, NB | C4));
        assert_eq!(after(0xF232, 0xFF, 0x0F), (0x00, 0x10, C4));
        assert_eq!(after(0xF332, 0xFF, 0xFF), (0x00, 0x00, ZB | C4 | C8));
        assert_eq!(after(0xF232, 0x01, 0x00), (0x02, 0x00, 0));
        assert_eq!(after(0xF432, 0xFE, 0x12), (0x00, 0x12, ZB | C4 | C8));
        assert_eq!(after(0xF532, 0xFD, 0x12), (0xFF, 0x12, NB));
        assert_eq!(after(0xF632, 0xFE, 0x7F), (0x00, 0x80, NB | C4));
        assert_eq!(after(0xF732, 0xFE, 0xFF), (0x00, 0x00, ZB | C4 | C8));
    }

    #[test]
    fn increments_of_one_register() {
        let mut state = addressed(0xFF, 0);
        assert_eq!(step(0xF222, &mut state), done(1, 0xFFFF, 2));
        assert_eq!((state.registers[r(2)], state.flags), (0x01, 0));
        // The same register under two names: RC, and designator 0 with G 6.
        let mut state = blank();
        state.g = 6;
        state.registers[r(0xC)] = 0xFE;
        step(0xF60C, &mut state);
        assert_eq!(state.registers[r(0xC)], 0x01);
    }

    #[test]
    fn input_byte_options() {
        for (m, taken) in [(0, [0x80, 0x00, 0x00, 0x80]), (1, [0x80, 0x00, 0x80, 0x00])] {
            for b in 0..8_u32 {
                let byte = taken[b as usize % 4];
                let mut state = State {
                    m,
                    sync: true,
                    iack: true,
                    flags: V | C | C4 | C8,
                    ..blank()
                };
                let outcome = with(0xE102 | b << 4, &[], &mut state, reply(0x8000));
                assert_eq!(outcome, done(5, 0x8000, 1));
                assert_eq!(state.registers[r(2)], byte);
                let signs = if byte == 0 { Z | ZB } else { N | NB };
                assert_eq!(state.flags, signs | C | C4 | C8);
                assert_eq!((state.sync, state.iack), (b > 3, b > 3));
                assert_eq!((state.tr, state.g, state.ics), (0, 0, false));
            }
        }
    }

    #[test]
    fn input_word_options() {
        for b in 0..8_u32 {
            let mut state = State {
                g: 7,
                sync: true,
                iack: true,
                ..blank()
            };
            let sample = Sample {
                ics: true,
                ..reply(0x8150)
            };
            assert_eq!(
                with(0xE200 | b << 4, &[], &mut state, sample),
                done(5, 0x8150, 2)
            );
            // G 7 before the attempt: RE and RF.
            assert_eq!(state.registers[r(0xE)..], [0x50, 0x81]);
            let loads = b % 4 != 0;
            assert_eq!(state.tr, if loads { 0x8150 } else { 0 });
            assert_eq!(state.ics, loads);
            assert_eq!(state.g, [7, 5, 5, 7][b as usize % 4]);
            assert_eq!((state.sync, state.iack), (b > 3, b > 3));
            assert_eq!(state.flags, NB);
        }
        // DAL 8-6 and 6-4 told apart; ICS is loaded, not set.
        for (b, g) in [(1, 4), (2, 1)] {
            let mut state = State {
                ics: true,
                ..blank()
            };
            with(0xE202 | b << 4, &[], &mut state, reply(0x0040));
            assert_eq!((state.g, state.ics), (g, false));
        }
    }

    #[test]
    fn status_inputs() {
        let mut state = State {
            m: 1,
            sync: true,
            iack: true,
            ..blank()
        };
        let sample = Sample {
            data: 0x8012,
            busy: true,
            ics: true,
            ..compute()
        };
        assert_eq!(with(0xE522, &[], &mut state, sample), done(9, 0x8012, 1));
        assert_eq!((state.registers[r(2)], state.flags), (0x80, N | NB));
        assert_eq!(with(0xE7F4, &[], &mut state, sample), done(9, 0x8012, 2));
        assert_eq!(state.registers[r(4)..r(6)], [0x12, 0x80]);
        assert!(state.sync && state.iack && !state.ics);
        assert_eq!((state.tr, state.g, state.m), (0, 0, 1));
    }

    #[test]
    fn input_word_zero_needs_both_bytes() {
        for (data, flags) in [(0x0001, 0), (0x0100, 0), (0, Z | ZB), (0x0080, 0)] {
            let mut state = blank();
            with(0xE302, &[], &mut state, reply(data));
            assert_eq!(state.flags, flags);
        }
    }
}
