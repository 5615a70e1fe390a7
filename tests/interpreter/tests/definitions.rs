//! Arithmetic against the definitions as they are written: whole numbers, a word as two cycles, one
//! flag at a time.

mod common;

use common::{blank, done, r, step};
use interpreter::State;

/// The result of one cycle.
#[derive(Clone, Copy)]
struct Cycle {
    value: u8,
    c4: bool,
    c8: bool,
    v: bool,
}

/// Byte add of p, q and carry.
fn add(p: u8, q: u8, carry: bool) -> Cycle {
    let sum = u32::from(p) + u32::from(q) + u32::from(carry);
    let digits = u32::from(p % 16) + u32::from(q % 16) + u32::from(carry);
    let signed = i32::from(p as i8) + i32::from(q as i8) + i32::from(carry);
    Cycle {
        value: (sum % 256) as u8,
        c4: digits >= 16,
        c8: sum >= 256,
        v: !(-128..=127).contains(&signed),
    }
}

fn left(p: u8, carry: bool) -> Cycle {
    Cycle {
        value: (u32::from(p) * 2 % 256) as u8 + u8::from(carry),
        c4: p / 8 % 2 == 1,
        c8: p >= 128,
        // The carry into the top position against the carry out of it.
        v: (p / 64 % 2 == 1) != (p >= 128),
    }
}

fn right(p: u8, carry: bool) -> Cycle {
    Cycle {
        value: p / 2 + 128 * u8::from(carry),
        c4: false,
        c8: p % 2 == 1,
        v: false,
    }
}

/// What a group of four codes does to flags beyond N, Z and the status signs.
enum Carries {
    /// C4 and C8 as worked out, C equal to C8.
    Carry,
    /// C4 and C8 as worked out, C the borrow.
    Borrow,
    /// C4, C8 and C kept, V 0.
    Kept,
    /// C4, C8, V 0, C 1.
    Complement,
}

/// One cycle of code group `group`; `first` is its first cycle.
fn cycle(group: u32, ra: u8, rb: u8, first: bool, c: bool, c8: bool) -> (Cycle, Carries) {
    let plain = |value| {
        let cycle = Cycle {
            value,
            c4: false,
            c8: false,
            v: false,
        };
        (cycle, Carries::Kept)
    };
    // The carry of the first cycle, or C8.
    let carry = |start: bool| if first { start } else { c8 };
    let by = |amount: u8| if first { amount } else { 0 };
    match group {
        0x80 | 0x84 => plain(rb),
        0x88 => (left(rb, carry(c)), Carries::Carry),
        0x8C => (left(rb, carry(false)), Carries::Carry),
        0x90 => (add(rb, by(1), carry(false)), Carries::Carry),
        0x94 => (add(rb, by(2), carry(false)), Carries::Carry),
        0x98 => (add(0, 255 - rb, carry(true)), Carries::Borrow),
        0x9C => (plain(255 - rb).0, Carries::Complement),
        0xA0 | 0xA4 | 0xAC => (add(ra, rb, carry(false)), Carries::Carry),
        0xA8 => (add(ra, rb, carry(c)), Carries::Carry),
        0xB0 | 0xB4 => (add(ra, 255 - rb, carry(true)), Carries::Borrow),
        0xB8 => (add(ra, 255 - rb, carry(!c)), Carries::Borrow),
        0xBC => (add(rb, 255 - by(1), carry(true)), Carries::Borrow),
        0xC0 | 0xC4 => plain(ra & rb),
        0xC8 => plain(ra | rb),
        0xCC => plain(ra ^ rb),
        0xD0 => plain(ra & !rb),
        0xD8 => (right(rb, carry(c)), Carries::Carry),
        _ => (right(rb, carry(false)), Carries::Carry),
    }
}

/// The flag byte, given the last cycle and whether the whole result is 0.
fn flags(before: u8, odd: bool, last: Cycle, carries: Carries, zero: bool) -> u8 {
    let old = |bit: u8| before >> bit & 1 == 1;
    let negative = last.value >= 128;
    let (v, c, c4, c8) = match carries {
        Carries::Carry => (last.v, last.c8, last.c4, last.c8),
        Carries::Borrow => (last.v, !last.c8, last.c4, last.c8),
        Carries::Kept => (false, old(4), old(1), old(0)),
        Carries::Complement => (false, true, false, false),
    };
    let condition = if odd {
        [negative, zero, v, c]
    } else {
        [old(7), old(6), old(5), old(4)]
    };
    let status = [negative, zero, c4, c8];
    let all = condition.into_iter().chain(status);
    all.fold(0, |byte, flag| byte * 2 + u8::from(flag))
}

/// R2-R5 and the flag byte that a word leaves whose designators are among them. Each cycle reads
/// what the one before it wrote.
fn expected(word: u32, mut file: [u8; 4], before: u8, ics: bool) -> ([u8; 4], u8) {
    let (top, b, a) = (word >> 8, word >> 4 & 15, word & 15);
    let (group, two, odd) = (top & 0xFC, top & 2 != 0, top & 1 != 0);
    let c = before & 0x10 != 0;
    let failed = match group {
        0x84 | 0xA4 => !c,
        0xAC => !ics,
        _ => false,
    };
    if failed {
        return (file, before);
    }
    // The low byte has the word's designators, the high byte those with the lowest bit inverted.
    let order: &[u32] = match (two, group) {
        (false, _) => &[0],
        (true, 0xD8 | 0xDC) => &[1, 0],
        (true, _) => &[0, 1],
    };
    let (mut zero, mut c8, mut last) = (true, false, None);
    for (count, inverted) in order.iter().enumerate() {
        let [ra, rb] = [a, b].map(|designator| (designator ^ inverted) as usize - 2);
        let (done, carries) = cycle(group, file[ra], file[rb], count == 0, c, c8);
        if !matches!(group, 0xB4 | 0xC4) {
            file[ra] = done.value;
        }
        zero &= done.value == 0;
        c8 = done.c8;
        last = Some((done, carries));
    }
    let (last, carries) = last.unwrap();
    (file, flags(before, odd, last, carries, zero))
}

/// Compares one word of 80-DF with R2-R5 being these.
fn check(word: u32, file: [u8; 4], before: u8, ics: bool) {
    let mut state = State {
        flags: before,
        ics,
        ..blank()
    };
    state.registers[r(2)..r(6)].copy_from_slice(&file);
    let cycles = if word & 0x200 == 0 { 1 } else { 2 };
    assert_eq!(step(word, &mut state), done(0, 0, cycles));
    let (left, flags) = expected(word, file, before, ics);
    let told = || format!("{word:X} {file:X?} {before:X} {ics}");
    assert_eq!(state.registers[r(2)..r(6)], left, "{}", told());
    assert_eq!(state.flags, flags, "{}", told());
}

fn listed() -> impl Iterator<Item = u32> {
    (0x80..=0xDF).filter(|top| !matches!(top, 0xAC | 0xAD | 0xD4..=0xD7))
}

/// Checks a word with every two bytes in R2 and R3. The flags before only matter through C, and by
/// being kept.
fn every_two_bytes(word: u32) {
    for operands in 0..=0xFFFF_u16 {
        let [r2, r3] = operands.to_le_bytes();
        let (one, other) = match operands.count_ones() % 2 {
            0 => (0x5A, 0xA5),
            _ => (0xA5, 0x5A),
        };
        check(word, [r2, r3, 0x77, 0x33], one, false);
        check(word, [r2, r3, 0x00, 0x00], other, true);
    }
}

#[test]
fn every_byte_code_on_every_two_bytes() {
    for top in listed().filter(|top| top & 2 == 0) {
        every_two_bytes(top << 8 | 0x32);
    }
}

#[test]
fn every_word_code_crosswise_on_every_two_bytes() {
    for top in listed().filter(|top| top & 2 != 0) {
        every_two_bytes(top << 8 | 0x32);
        every_two_bytes(top << 8 | 0x23);
    }
}

/// Checks a word with some flags before, ICS high and low.
fn every_setting(word: u32, file: [u8; 4]) {
    for (before, ics) in [(0x00, true), (0xFF, false), (0x6C, true)] {
        check(word, file, before, ics);
    }
}

#[test]
fn every_word_code_on_telling_words() {
    const BYTES: [u8; 12] = [0, 1, 2, 8, 0x0F, 0x10, 0x7F, 0x80, 0x88, 0xF0, 0xFE, 0xFF];
    let pairs = || BYTES.iter().flat_map(|&low| BYTES.map(|high| [low, high]));
    for word in listed().filter(|top| top & 2 != 0).map(|top| top << 8) {
        for [r2, r3] in pairs() {
            for [r4, r5] in pairs() {
                for designators in [0x42, 0x53, 0x43, 0x52] {
                    every_setting(word | designators, [r2, r3, r4, r5]);
                }
            }
        }
    }
}

/// NB ZB C4 C8 of a cycle.
fn status(cycle: Cycle, zero: bool) -> u8 {
    u8::from(cycle.value >= 128) * 8
        + u8::from(zero) * 4
        + u8::from(cycle.c4) * 2
        + u8::from(cycle.c8)
}

#[test]
fn literals() {
    for operands in 0..=0xFFFF_u16 {
        let [ra, literal] = operands.to_le_bytes();
        for (code, before) in [(2, 0xF0), (3, 0xF3), (4, 0xA1), (5, 0x52), (6, 0x0F)] {
            let (value, stored) = match code {
                2 => (add(ra, literal, false).value, true),
                3 => (ra.wrapping_sub(literal), false),
                4 => (ra & literal, true),
                5 => (ra & literal, false),
                _ => (literal, true),
            };
            let (kept, set) = match code {
                2 => (0xF0, status(add(ra, literal, false), value == 0)),
                _ => (0xF3, status(add(value, 0, false), value == 0)),
            };
            let word = code << 12 | u32::from(literal) << 4 | 2;
            let wanted = (if stored { value } else { ra }, before & kept | set);
            assert_eq!(common::bytes(word, ra, 0, before), wanted);
        }
    }
}

#[test]
fn conditional_increment_and_decrement() {
    for ra in 0..=255 {
        for before in [0x00, 0x5F, 0xF1, 0xAE] {
            for (word, addend) in [(0x7602, 0), (0x7702, 255)] {
                let sum = add(ra, addend, before & 1 != 0);
                let flags = before & 0xF0 | status(sum, sum.value == 0);
                assert_eq!(common::bytes(word, ra, 0, before), (sum.value, flags));
            }
        }
    }
}

/// R2, R3 and the flag byte after F0-F7 with a 2 and b either 3 or 2.
fn incremented(top: u32, mut file: [u8; 2], b: usize, before: u8) -> ([u8; 2], u8) {
    let gain = if top & 4 == 0 { 1 } else { 2 };
    let mut last = add(file[0], gain, false);
    let mut zero = last.value == 0;
    file[0] = last.value;
    if top & 2 != 0 {
        last = add(file[b], 0, last.c8);
        zero &= last.value == 0;
        file[b] = last.value;
    }
    (file, before & 0xF0 | status(last, zero))
}

#[test]
fn reads_and_writes_that_increment() {
    for operands in 0..=0xFFFF_u16 {
        for top in 0xF0..=0xF7_u32 {
            for b in [0, 1] {
                let mut state = blank();
                let file = operands.to_le_bytes();
                state.registers[r(2)..r(4)].copy_from_slice(&file);
                state.flags = 0xA5;
                let value = u32::from(file[b]) << 8 | u32::from(file[0]);
                let (kind, cycles) = (1 + top % 2, 1 + top / 2 % 2);
                let word = top << 8 | 0x22 | (b as u32) << 4;
                assert_eq!(step(word, &mut state), done(kind, value, cycles));
                let (file, flags) = incremented(top, file, b, 0xA5);
                assert_eq!(state.registers[r(2)..r(4)], file);
                assert_eq!((state.flags, u32::from(state.m)), (flags, value));
            }
        }
    }
}
