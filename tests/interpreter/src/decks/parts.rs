//! Words, rows, states and samples in range.

use super::Random;
use crate::code::CODES;
use crate::STATE_BYTES;

/// A program of listed codes with listed options that stays inside its words.
pub(super) fn program(random: &mut Random, count: usize) -> Vec<u32> {
    let mut words: Vec<u32> = Vec::with_capacity(count);
    for own in 0..count {
        let modified = words
            .last()
            .map_or(false, |word| matches!(word >> 8 & 0xFF, 0xEC | 0xED));
        words.push(if own + 1 == count && count < 2048 && !random.one_in(8) {
            // A jump back to the start, with no RR that points behind the end.
            random.below(64) << 16 & !(1 << 16)
        } else if modified && !random.one_in(16) {
            // F0-FF are legal whatever is ORed into them.
            upper_bits(random) | 0xF000 | random.below(0x1000)
        } else {
            legal_word(random, own, count)
        });
    }
    words
}

/// A word of a listed code, legal at this address among so many words.
pub(super) fn legal_word(random: &mut Random, own: usize, count: usize) -> u32 {
    let top = loop {
        let top = match random.below(16) {
            0 => random.pick(&[0x00, 0x03, 0x08, 0x0D]),
            1 | 2 => 0x10 + random.below(16),
            3 | 4 => 0x20 + random.below(0x50),
            5 => 0x70 + random.below(8),
            6..=11 => 0x80 + random.below(0x60),
            12 | 13 => 0xE0 + random.below(16),
            _ => 0xF0 + random.below(16),
        };
        // MI by half, since a modified word is often refused.
        let modifies = matches!(top, 0xEC | 0xED);
        if CODES[top as usize].cycles != 0 && (!modifies || random.one_in(2)) {
            break top;
        }
    };
    let word = match top {
        0x00..=0x07 => ahead(random, own, count) as u32,
        // With RR loaded, so that the next return goes elsewhere.
        0x08..=0x0F => top << 8 | random.below(256) | u32::from(!random.one_in(8)) << 16,
        0x10..=0x1F => top << 8 | in_page(random, own, count) as u32,
        _ => legal(top << 8 | random.below(256)),
    };
    upper_bits(random) | word
}

/// The word without the option bits that would have it refused.
pub(super) fn legal(word: u32) -> u32 {
    let code = CODES[(word >> 8 & 0xFF) as usize];
    word & !u32::from(code.options)
}

/// Bits 16-21: RR and RNI sometimes, the user's outputs anyhow.
pub(super) fn upper_bits(random: &mut Random) -> u32 {
    u32::from(random.one_in(8)) << 16 | u32::from(random.one_in(4)) << 17 | random.below(16) << 18
}

/// An address among so many words, mostly a little further on, so that programs do not settle in a
/// small loop.
fn ahead(random: &mut Random, own: usize, count: usize) -> usize {
    if random.one_in(64) {
        random.below(count as u32) as usize
    } else {
        (own + 1 + random.below(64) as usize) % count
    }
}

/// The low byte of such an address in the same page, not back to its start where it can be helped.
fn in_page(random: &mut Random, own: usize, count: usize) -> usize {
    let (page, low) = (own & !0xFF, own & 0xFF);
    let end = (count - page).min(256);
    if low + 1 == end || random.one_in(16) {
        random.below(end as u32) as usize
    } else {
        low + 1 + random.below(64.min(end - low - 1) as u32) as usize
    }
}

/// A row whose address lies among so many words, alone or ORed with others.
pub(super) fn row(random: &mut Random, words: usize) -> [u8; 16] {
    let mut row = [0; 16];
    let words = words.max(1);
    let at = random.below(words as u32) as usize;
    let lc_mask = match random.below(4) {
        0 => 0,
        1 => (random.bits() | random.bits()) as u16 & 0x7FF,
        _ => 0x7FF,
    };
    row[..2].copy_from_slice(&lc_mask.to_le_bytes());
    row[2..4].copy_from_slice(&(at as u16 & lc_mask).to_le_bytes());
    for (at, limit) in [(4, 1), (6, 0xFF), (8, 3), (10, 0x7F)] {
        let thin = random.byte() & random.byte() & limit;
        row[at] = if random.one_in(2) { thin } else { 0 };
        row[at + 1] = random.byte() & row[at];
    }
    // Addresses below a power of two stay below it when they are ORed.
    let power = (words / 2 + 1).next_power_of_two();
    let address = ahead(random, at, power) as u16;
    row[12..14].copy_from_slice(&address.to_le_bytes());
    // A row that matches at every address seldom leads away from it.
    let leads = lc_mask != 0 || random.one_in(16);
    row[14] = random.below(8) as u8 & if leads { 7 } else { 4 };
    row[15] = random.below(8) as u8;
    if row[14] & 3 != 0 && (lc_mask != 0x7FF || row[14] & 2 != 0 || !random.one_in(4)) {
        // By I0-I3, which change with each sample, so that a way back is not taken for ever.
        let exact = 1 << random.below(4) | 1 << random.below(4);
        row[10] |= if lc_mask == 0x7FF { exact } else { 15 };
        row[11] = random.byte() & row[10];
    }
    row
}

/// A state whose LC and RR lie among so many words.
pub(super) fn state(random: &mut Random, words: usize) -> [u8; STATE_BYTES] {
    let mut state = [0; STATE_BYTES];
    for register in &mut state[..26] {
        *register = random.telling_byte();
    }
    state[26] = random.below(8) as u8;
    state[27] = random.byte();
    for (at, number) in [
        (28, random.below(words.max(1) as u32) as u16),
        (30, random.below(words.max(1) as u32) as u16),
        (32, random.telling_word()),
        (34, random.telling_word()),
    ] {
        state[at..at + 2].copy_from_slice(&number.to_le_bytes());
    }
    state[36] = random.below(8) as u8;
    state[37] = random.below(8) as u8;
    // Both from one draw, so that the rest of a seed's deck does not depend on the outputs.
    let drawn = random.below(8 * 16) as u8;
    (state[38], state[41]) = (drawn / 16, drawn % 16);
    state
}

/// A TR where Q1 turns: one of its terms is true, or every other time one bit short of it. The bits
/// that the term does not name are any.
pub(super) fn telling_tr(random: &mut Random) -> u16 {
    // The second term tells only where the first is false.
    let (named, value) = random.pick(&[(0x6000, 0x2000), (0x7FC0, 0x0BC0)]);
    let tr = value | random.bits() as u16 & !named;
    let bits = (0..16).map(|at| 1 << at);
    let bits: Vec<u16> = bits.filter(|bit| named & bit != 0).collect();
    match random.one_in(2) {
        true => tr,
        false => tr ^ random.pick(&bits),
    }
}

/// Marks a waiting modification, sometimes of no bits.
pub(super) fn modify(random: &mut Random, state: &mut [u8; STATE_BYTES]) {
    let bits = match random.below(4) {
        0 => 0,
        1 => random.bits() as u16,
        2 => (random.bits() & random.bits() & random.bits()) as u16,
        _ => 1 << random.below(16),
    };
    state[37] |= 8;
    state[39..41].copy_from_slice(&bits.to_le_bytes());
}

/// A sample, COMPUTE nearly always high and RESET once in so many.
pub(super) fn sample(random: &mut Random, reset: u32) -> [u8; 4] {
    let [low, high] = random.telling_word().to_le_bytes();
    let reply = u8::from(random.one_in(2));
    let busy = u8::from(random.one_in(4));
    let compute = u8::from(!random.one_in(16));
    let reset = u8::from(random.one_in(reset));
    let ics = u8::from(random.one_in(2));
    let lines = reply | busy << 1 | compute << 2 | reset << 3 | ics << 4;
    [low, high, lines, random.below(16) as u8]
}
