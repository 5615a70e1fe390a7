//! Decks with traffic: programs that access the memory near its ends, and samples that let them.

use compare::deck::Sections;
use compare::lines::{BUSY, COMPUTE, ICS, REPLY, RESET};
use interpreter::decks::{case, Kind, Random};
use interpreter::{place, STATE_BYTES};

/// The words of a program, so many at least: the rows of a short deck lead nowhere else.
const WORDS: usize = 32;
/// Designators of address pairs' low bytes.
const ADDRESSES: [u32; 3] = [2, 4, 6];
/// The pair of the modification.
const MODIFICATION: u32 = 14;
const NOP: u32 = 0xFF00;
const MI: u32 = 0xEC00 | (MODIFICATION + 1) << 4 | MODIFICATION;

/// A deck whose memory has so many bytes.
pub fn deck(random: &mut Random, length: usize) -> Vec<u8> {
    // Rows, TSR, flags and interrupts are a short deck's.
    let short = case(Kind::Short, random.bits()).deck;
    let own = Sections::of(&short).expect("a deck in range");
    let rows = if random.one_in(4) { own.rows } else { &[] };
    let mut state: [u8; STATE_BYTES] = own.state.try_into().expect("a state");
    prepare(random, &mut state, length);
    let words = program(random);
    let words: Vec<u8> = words.iter().flat_map(|word| word.to_le_bytes()).collect();
    let samples = samples(random).concat();
    let sections = Sections {
        words: &words,
        rows,
        state: &state,
        samples: &samples,
    };
    sections.deck()
}

/// Addresses in their pairs, a modification that makes other codes, TR with either Q1.
fn prepare(random: &mut Random, state: &mut [u8; STATE_BYTES], length: usize) {
    let g = state[26];
    let mut put = |designator: u32, value: u16| {
        let [low, high] = value.to_le_bytes();
        state[place(designator as u8, g)] = low;
        state[place(designator as u8 + 1, g)] = high;
    };
    for designator in ADDRESSES {
        put(designator, address(random, length));
    }
    // R to OB and NB to IB, the most; IB to IW, OB to OW; an option, a register, nothing.
    let bits = match random.below(9) {
        0..=3 => random.pick(&[0x0400, 0x2000]),
        _ => random.pick(&[0x0200, 0x0100, 0x0040, 0x0001, 0]),
    };
    put(MODIFICATION, bits);
    let tr = random.pick(&[0x2000, 0x0BC0, 0x0000, 0x6000]) | random.below(64) as u16;
    state[32..34].copy_from_slice(&tr.to_le_bytes());
    if !random.one_in(4) {
        state[28..30].fill(0);
    }
}

/// An address at either end of a memory, just beyond it, in it or anywhere.
fn address(random: &mut Random, length: usize) -> u16 {
    let near = match random.below(8) {
        0..=2 => random.below(4) as usize,
        3 | 4 => (length + random.below(4) as usize).wrapping_sub(4),
        5 => length + random.below(4) as usize,
        6 => random.below(length.max(1) as u32) as usize,
        _ => random.below(65_536) as usize,
    };
    near as u16
}

/// Pieces of traffic, then a jump back.
fn program(random: &mut Random) -> Vec<u32> {
    let mut words = Vec::new();
    while words.len() < WORDS - 1 {
        let pair = random.pick(&ADDRESSES);
        piece(random, pair, &mut words);
    }
    words.push(random.below(4));
    let words = words.into_iter();
    words.map(|word| word | upper_bits(random)).collect()
}

/// Bits 16-21: RR seldom, RNI and the user's outputs anyhow.
fn upper_bits(random: &mut Random) -> u32 {
    u32::from(random.one_in(8)) << 16 | random.below(32) << 17
}

/// An access with what follows it, or something else.
fn piece(random: &mut Random, pair: u32, words: &mut Vec<u32>) {
    let (read, write) = (access(random, pair, 0xF800), access(random, pair, 0xF900));
    match random.below(48) {
        // Read, modify, write.
        0..=7 => {
            words.push(read);
            fill(random, words);
            words.push(input(random, 4));
            fill(random, words);
            words.push(output(random));
        }
        // What was written is read back.
        8..=13 => words.extend([write, output(random), read, input(random, 0)]),
        14..=23 => {
            words.push(read);
            fill(random, words);
            words.push(input(random, 0));
        }
        24..=31 => {
            words.push(write);
            fill(random, words);
            words.push(output(random));
        }
        32..=37 => {
            words.push(read);
            fill(random, words);
            words.extend([MI, to_modify(random)]);
        }
        // A later access before the transfer.
        38..=41 => {
            let later = random.pick(&ADDRESSES);
            words.push(read);
            fill(random, words);
            words.extend([access(random, later, 0xF900), transfer(random)]);
        }
        _ => words.push(other(random, pair)),
    }
}

/// A word that the modification may make an input or an output of, or another.
fn to_modify(random: &mut Random) -> u32 {
    match random.below(8) {
        0..=2 => 0xF800 | random.below(256),
        3..=5 => 0xC000 | random.below(4) << 8 | random.below(8) << 4 | data(random),
        _ => transfer(random),
    }
}

/// A transfer too many, which waits for ever; a jump; a refused word; the next or the previous address.
fn other(random: &mut Random, pair: u32) -> u32 {
    match random.below(16) {
        0 | 1 => transfer(random),
        2..=4 => 0x1000 | random.below(16) << 8 | random.below(WORDS as u32),
        5 => random.pick(&[0x7800, 0xE088, 0x07FF]),
        _ => random.pick(&[0x9200, 0xBE00]) | pair << 4 | pair,
    }
}

/// An access of a pair, mostly by R or W as the code says.
fn access(random: &mut Random, pair: u32, code: u32) -> u32 {
    let code = match random.below(8) {
        0 => code | 0x200,
        1 | 2 => 0xF000 | random.below(8) << 8,
        _ => code,
    };
    code | (pair + 1) << 4 | pair
}

/// A register that holds no address.
fn data(random: &mut Random) -> u32 {
    8 + random.below(6)
}

/// IB or IW, with b from here on.
fn input(random: &mut Random, least: u32) -> u32 {
    let b = least + random.below(8 - least);
    0xE000 | random.below(4) << 8 | b << 4 | data(random)
}

/// OB or OW.
fn output(random: &mut Random) -> u32 {
    0xFC00 | random.below(2) << 8 | data(random) << 4 | data(random)
}

fn transfer(random: &mut Random) -> u32 {
    match random.one_in(2) {
        true => input(random, 0),
        false => output(random),
    }
}

/// Words that wait for nothing, often none.
fn fill(random: &mut Random, words: &mut Vec<u32>) {
    for _ in 0..random.below(3) * random.below(2) {
        words.push(match random.below(5) {
            0 => NOP,
            1 => 0xFE00 | data(random) << 4 | data(random),
            2 => 0xE400 | random.below(2) << 8 | random.below(4) << 4 | data(random),
            3 => 0xE600 | random.below(256) & 0xF0 | data(random),
            _ => 0x8000 | random.below(0x2C) << 8 | data(random) << 4 | data(random),
        });
    }
}

/// The external lines: the same for all attempts, or others for each; sometimes BUSY stays.
fn samples(random: &mut Random) -> Vec<[u8; 4]> {
    let count = match random.below(4) {
        0 => random.below(41),
        _ => 40 + random.below(100),
    };
    let mut samples = match random.below(3) {
        0 => {
            let mut sample = sample(random, 64);
            sample[2] = sample[2] & !(BUSY | RESET) | COMPUTE;
            vec![sample; count as usize]
        }
        1 => (0..count).map(|_| sample(random, 12)).collect(),
        _ => (0..count).map(|_| sample(random, 80)).collect(),
    };
    if random.one_in(6) {
        let from = 1 + random.below(3) as usize;
        samples.iter_mut().skip(from).for_each(|own| own[2] |= BUSY);
    }
    samples
}

/// Any data and REPLY; BUSY, COMPUTE low and RESET once in so many, RESET the seldomest.
fn sample(random: &mut Random, times: u32) -> [u8; 4] {
    let [low, high] = random.telling_word().to_le_bytes();
    let mut lines = random.byte() & (REPLY | ICS);
    for (line, one_in) in [(BUSY, times / 2), (COMPUTE, times), (RESET, 3 * times)] {
        lines |= u8::from(random.one_in(one_in)) * line;
    }
    [low, high, lines ^ COMPUTE, random.below(16) as u8]
}
