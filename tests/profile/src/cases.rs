//! The lists of words.

use interpreter::decks::Random;

const MOST: usize = 2048;
const NOP: u32 = 0xFF00;
/// Bit 16.
const RR: u32 = 1 << 16;

/// Words that break one rule, or more, or 2.
const BAD: [u32; 14] = [
    0xEC00,
    0xED42,
    RR | 0xEC00,
    RR | NOP,
    RR | 0x0800,
    RR | 0xAC22,
    RR | 0x7800,
    0xAC22,
    0xAD00,
    0x7800,
    0x7FFF,
    0xD400,
    0xEB00,
    1 << 22 | NOP,
];

/// Hands each list on: those that are listed, and so many by chance.
pub fn all(count: u64, seed: u64, to: &mut dyn FnMut(Vec<u8>)) {
    pairs(to);
    every_code(to);
    lengths(to);
    out_of_range(to);
    let random = &mut Random::new(seed);
    (0..count).for_each(|_| to(by_chance(random)));
}

fn bytes(words: &[u32]) -> Vec<u8> {
    words.iter().flat_map(|word| word.to_le_bytes()).collect()
}

/// So many words that are accepted, but for this one.
fn one(length: usize, at: usize, word: u32) -> Vec<u8> {
    let mut words = vec![NOP; length];
    words[at] = word;
    bytes(&words)
}

/// Every instruction with and without bit 16 at addresses 0 and 1, and every top byte with each value
/// of bits 16-21 at the last of several.
fn every_code(to: &mut dyn FnMut(Vec<u8>)) {
    for word in 0..=0xFFFF {
        for rr in [0, RR] {
            to(one(1, 0, rr | word));
            to(one(2, 1, rr | word));
        }
    }
    for high in 0..64 {
        for top in 0..256 {
            to(one(3, 2, high << 16 | top << 8 | 0x32));
        }
    }
    for top in 0..256 {
        for at in [2, 255, 256, 1024, MOST - 1] {
            to(one(at + 1, at, top << 8));
            to(one(MOST, at, RR | top << 8));
        }
    }
}

/// Two words that break something, in either order, at the first addresses and far apart.
fn pairs(to: &mut dyn FnMut(Vec<u8>)) {
    for first in BAD {
        for second in BAD {
            for (length, at, then) in [(2, 0, 1), (4, 1, 3), (9, 4, 8), (MOST, 7, MOST - 1)] {
                let mut words = vec![NOP; length];
                (words[at], words[then]) = (first, second);
                to(bytes(&words));
            }
        }
    }
}

/// Lengths about the border and no multiple of 4, with words that are accepted, broken and too large.
fn lengths(to: &mut dyn FnMut(Vec<u8>)) {
    for word in [NOP, 0x0000, 0x7800, 0xEC00, 1 << 22, u32::MAX] {
        let words = bytes(&[word; MOST + 3]);
        for length in (0..40).chain(4 * MOST - 9..words.len()) {
            to(words[..length].to_vec());
        }
    }
    for (word, part) in BAD
        .into_iter()
        .flat_map(|word| [1, 2, 3].map(|part| (word, part)))
    {
        for rest in [0x00, 0xFF] {
            to([one(5, 3, word), vec![rest; part]].concat());
            to([one(MOST, MOST - 1, word), vec![rest; part]].concat());
        }
    }
    to(vec![0xFF; 65_536]);
    to(vec![0x00; 65_537]);
}

/// Words of 2^22 and more: each bit, alone, among broken ones, and beyond the 2,048th.
fn out_of_range(to: &mut dyn FnMut(Vec<u8>)) {
    for bit in 16..32 {
        let large = 1 << bit | NOP;
        for (length, at) in [
            (1, 0),
            (2, 1),
            (9, 4),
            (MOST, MOST - 1),
            (MOST + 1, MOST - 1),
            (MOST + 1, MOST),
            (MOST + 2, MOST + 1),
        ] {
            to(one(length, at, large));
            let mut words = vec![0xEC00; length];
            words[at] = large;
            to(bytes(&words));
            words[length / 2] = large;
            to(bytes(&words));
        }
    }
}

/// A list that is mostly accepted, with up to three damages.
fn by_chance(random: &mut Random) -> Vec<u8> {
    let length = match random.below(200) {
        0 => random.below(2060),
        1..=20 => random.below(200),
        _ => random.below(24),
    };
    let mut words: Vec<u32> = (0..length).map(|_| good(random)).collect();
    if let Some(first) = words.first_mut().filter(|_| !random.one_in(8)) {
        *first = random.below(64) << 17 & 0x3E_0000 | random.pick(&[NOP, 0x0000, 0x0123]);
    }
    for _ in 0..random.below(4) * random.below(2) {
        if let Some(word) = words.get_mut(random.below(length.max(1)) as usize) {
            *word = match random.below(8) {
                0 => *word ^ 1 << random.below(22),
                1 => *word | 1 << (22 + random.below(10)),
                2 => *word | RR,
                3 => random.below(1 << 22),
                _ => random.below(64) << 16 & !RR | random.pick(&BAD),
            };
        }
    }
    let mut list = bytes(&words);
    if random.one_in(16) {
        let cut = random.below(4) as usize;
        list.truncate(list.len().saturating_sub(cut));
    }
    list
}

/// A word of a listed code that is accepted at any address but 0.
fn good(random: &mut Random) -> u32 {
    let upper = random.below(64) << 16;
    match random.below(4) {
        0 => upper | random.below(0x0800),
        1 => upper | 0x1000 | random.below(0x1000),
        _ => loop {
            let word = upper & !RR | (0x0800 + random.below(0xF800));
            if !matches!(
                word >> 8 & 0xFF,
                0x78..=0x7F | 0xAC | 0xAD | 0xD4..=0xD7 | 0xE8..=0xED
            ) {
                return word;
            }
        },
    }
}
