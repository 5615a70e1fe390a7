//! Execution of a word that is neither refused nor waiting.

use crate::alu::{add, complement, logical, shift_left, shift_right, subtract};
use crate::alu::{C, C8, N, NB, STATUS, V, Z, ZB};
use crate::marking::Marking;
use crate::sample::Sample;
use crate::state::{high, State};

/// Bit 16 of a word.
pub(crate) const LOAD_RR: u32 = 1 << 16;
/// Bit 17 of a word.
pub(crate) const RNI: u32 = 1 << 17;

/// What a word asks for besides its changes of the state.
pub(crate) struct Done {
    pub(crate) request: u32,
    /// Where a taken jump or RFS goes.
    pub(crate) jump: Option<u16>,
}

/// A request of this kind.
#[inline]
pub(crate) fn request(kind: u32, value: u16) -> u32 {
    kind << 16 | u32::from(value)
}

/// Executes the word, except for its way to the next.
#[inline]
pub(crate) fn execute(word: u32, state: &mut State, sample: Sample, marking: Marking) -> Done {
    let mut done = Done {
        request: 0,
        jump: None,
    };
    match (word >> 8) as u8 {
        0x00..=0x07 => done.jump = Some(word as u16 & 0x7FF),
        0x08..=0x0F => done.jump = Some(state.rr),
        0x10..=0x1F => done.jump = conditional_jump(word, state),
        0x20..=0x6F => literal(word, state),
        0x70..=0x77 => control(word, state),
        0x80..=0xAB | 0xAE..=0xD3 | 0xD8..=0xDF => register(word, state),
        0xE0..=0xE7 => done.request = input(word, state, sample, marking),
        0xEC | 0xED => state.modification = Some(designated(word, state)),
        0xEE | 0xEF => state.tr = designated(word, state),
        0xF0..=0xF7 => done.request = access_and_increment(word, state),
        0xF8..=0xFE => done.request = access(word, state),
        0xFF => {}
        0x78..=0x7F | 0xAC | 0xAD | 0xD4..=0xD7 | 0xE8..=0xEB => unreachable!("refused"),
    }
    done
}

/// Rb:Ra.
#[inline]
fn designated(word: u32, state: &State) -> u16 {
    let (a, b) = (state.place(word), state.place(word >> 4));
    u16::from_le_bytes([state.registers[a], state.registers[b]])
}

/// Where a conditional jump goes when it is taken.
#[inline]
fn conditional_jump(word: u32, state: &State) -> Option<u16> {
    const ICS: u16 = 0x100;
    const TESTED: [u16; 8] = [
        ZB as u16, C8 as u16, ICS, NB as u16, Z as u16, C as u16, V as u16, N as u16,
    ];
    let conditions = u16::from(state.flags) | u16::from(state.ics) << 8;
    let holds = conditions & TESTED[(word >> 9 & 7) as usize] != 0;
    let wanted = word & 0x100 != 0;
    (holds == wanted).then_some(state.lc & 0x700 | word as u16 & 0xFF)
}

/// 20-6F.
#[inline]
fn literal(word: u32, state: &mut State) {
    let (a, literal) = (state.place(word), word >> 4 & 0xFF);
    let ra = u32::from(state.registers[a]);
    let ((value, flags), status, writes) = match word >> 12 & 15 {
        2 => (add::<8>(ra, literal, 0), STATUS, true),
        3 => (subtract::<8>(ra, literal, 1), NB | ZB, false),
        4 => (logical::<8>(ra & literal, 0), NB | ZB, true),
        5 => (logical::<8>(ra & literal, 0), NB | ZB, false),
        _ => (logical::<8>(literal, 0), NB | ZB, true),
    };
    if writes {
        state.registers[a] = value as u8;
    }
    state.set_flags(flags, status);
}

/// 70-77.
#[inline]
fn control(word: u32, state: &mut State) {
    let (a, b) = (state.place(word), (word >> 4) as u8 & 15);
    let ra = state.registers[a];
    match word >> 8 & 7 {
        0 => state.internal &= !b,
        1 => state.internal |= b & 7,
        2 => state.registers[a] = state.flags,
        3 => state.set_flags(ra, b << 4),
        4 => state.tsr = 0,
        5 => state.g = ra & 7,
        code => {
            let addend = if code == 6 { 0 } else { 255 };
            let (value, flags) = add::<8>(ra.into(), addend, (state.flags & C8).into());
            state.registers[a] = value as u8;
            state.set_flags(flags, STATUS);
        }
    }
}

/// 80-DF.
#[inline]
fn register(word: u32, state: &mut State) {
    let (a, b) = (state.place(word), state.place(word >> 4));
    let flags = if word & 0x200 == 0 {
        let (ra, rb) = (state.registers[a].into(), state.registers[b].into());
        let (value, flags) = operate::<8>(word, ra, rb, state);
        state.registers[a] = value as u8;
        flags
    } else {
        let (ra, rb) = (state.pair(a).into(), state.pair(b).into());
        let (value, flags) = if a == high(b) {
            crosswise(word, ra, rb, state)
        } else {
            operate::<16>(word, ra, rb, state)
        };
        state.set_pair(a, value as u16);
        flags
    };
    state.set_flags(flags, reach(word));
}

/// The flags that a code reaches: an odd one all of them, an even one the status.
#[inline]
fn reach(word: u32) -> u8 {
    if word & 0x100 == 0 {
        STATUS
    } else {
        0xFF
    }
}

/// Ra and the flag byte after 80-DF. Those that write no register or whose condition fails give Ra
/// as it was.
#[inline]
fn operate<const BITS: u32>(word: u32, ra: u32, rb: u32, state: &State) -> (u32, u8) {
    let flags = state.flags;
    let carry = u32::from(flags & C != 0);
    match word >> 10 & 31 {
        0 => logical::<BITS>(rb, flags),
        1 if carry == 1 => logical::<BITS>(rb, flags),
        2 => shift_left::<BITS>(rb, carry),
        3 => shift_left::<BITS>(rb, 0),
        4 => add::<BITS>(rb, 1, 0),
        5 => add::<BITS>(rb, 2, 0),
        6 => subtract::<BITS>(0, rb, 1),
        7 => complement::<BITS>(rb),
        8 => add::<BITS>(ra, rb, 0),
        9 if carry == 1 => add::<BITS>(ra, rb, 0),
        10 => add::<BITS>(ra, rb, carry),
        11 if state.ics => add::<BITS>(ra, rb, 0),
        12 => subtract::<BITS>(ra, rb, 1),
        13 => (ra, subtract::<BITS>(ra, rb, 1).1),
        14 => subtract::<BITS>(ra, rb, 1 - carry),
        15 => subtract::<BITS>(rb, 1, 1),
        16 => logical::<BITS>(ra & rb, flags),
        17 => (ra, logical::<BITS>(ra & rb, flags).1),
        18 => logical::<BITS>(ra | rb, flags),
        19 => logical::<BITS>(ra ^ rb, flags),
        20 => logical::<BITS>(ra & !rb, flags),
        22 => shift_right::<BITS>(rb, carry),
        23 => shift_right::<BITS>(rb, 0),
        _ => (ra, flags),
    }
}

/// The same where the pairs are of the same two registers, each one's low byte the other's high one:
/// the second cycle reads in Rb what the first wrote. Where nothing is written, that is Rb as it was.
fn crosswise(word: u32, ra: u32, rb: u32, state: &State) -> (u32, u8) {
    let (first, _) = operate::<16>(word, ra, rb, state);
    let rb = match word >> 10 & 31 {
        // Right shifts, whose first cycle is that of the high byte.
        22 | 23 => rb & 0xFF00 | first >> 8,
        _ => first << 8 & 0xFF00 | rb & 0x00FF,
    };
    operate::<16>(word, ra, rb, state)
}

/// E0-E7: IB, IW, ISB, ISW.
#[inline]
fn input(word: u32, state: &mut State, sample: Sample, marking: Marking) -> u32 {
    let (a, b, data) = (state.place(word), word >> 4 & 15, sample.data);
    let whole = word & 0x200 != 0;
    let (_, flags) = if whole {
        state.set_pair(a, data);
        logical::<16>(data.into(), state.flags)
    } else {
        let [lower, upper] = data.to_le_bytes();
        let byte = if takes_upper(b, state.m) {
            upper
        } else {
            lower
        };
        state.registers[a] = byte;
        logical::<8>(byte.into(), state.flags)
    };
    state.set_flags(flags, reach(word));
    if word & 0x400 != 0 {
        return request(9, data);
    }
    // TR is still that before the instruction.
    if b & 4 == 0 || !marking.keeps_bus(state.tr) {
        state.sync = false;
        state.iack = false;
    }
    if whole && b & 3 != 0 {
        state.tr = data;
        state.ics = sample.ics;
        match b & 3 {
            1 => state.g = (data >> 4) as u8 & 7,
            2 => state.g = (data >> 6) as u8 & 7,
            _ => {}
        }
    }
    request(5, data)
}

/// Which byte IB and ISB take.
#[inline]
fn takes_upper(b: u32, m: u16) -> bool {
    match b & 3 {
        0 => true,
        1 => false,
        2 => m & 1 == 1,
        _ => m & 1 == 0,
    }
}

/// F0-F7: a read or write whose address registers then gain 1 or 2.
#[inline]
fn access_and_increment(word: u32, state: &mut State) -> u32 {
    let request = access(word, state);
    let (a, b) = (state.place(word), state.place(word >> 4));
    let gain = if word & 0x400 == 0 { 1 } else { 2 };
    let (low, mut flags) = add::<8>(state.registers[a].into(), gain, 0);
    state.registers[a] = low as u8;
    if word & 0x200 != 0 {
        // Rb after Ra was written: both may be one register.
        let rb = u32::from(state.registers[b]);
        let (high, high_flags) = add::<8>(rb, 0, (flags & C8).into());
        state.registers[b] = high as u8;
        // ZB needs both bytes.
        flags = high_flags & (flags | !ZB);
    }
    state.set_flags(flags, STATUS);
    request
}

/// The bus side of F0-FE.
#[inline]
fn access(word: u32, state: &mut State) -> u32 {
    state.m = designated(word, state);
    let kind = match word >> 8 & 15 {
        10 => 3,
        11 => 4,
        12 => 7,
        13 => 6,
        14 => 8,
        code => 1 + (code & 1),
    };
    match kind {
        1..=4 => {
            state.sync = true;
            state.iack |= kind >= 3;
        }
        6 | 7 => {
            state.sync = false;
            state.iack = false;
        }
        _ => {}
    }
    request(kind, state.m)
}
