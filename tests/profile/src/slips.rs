//! Slips that look right. The lists have to notice each, or they would not notice it in the compiled
//! check.

use interpreter::{profile, Profile};

/// Bit 16.
const RR: u32 = 1 << 16;
const NOP: u32 = 0xFF00;
const RFS: u32 = 0x0800;
const RTSR: u32 = 0x7400;
const CAD: u32 = 0xAC00;
const MI: u32 = 0xEC00;

/// What a wrong version says of a list.
type Wrong = fn(&[u8]) -> Profile;

/// A wrong version, by what is wrong with it.
pub struct Slip {
    pub name: &'static str,
    pub wrong: Wrong,
}

/// All of them.
pub fn all() -> Vec<Slip> {
    let all = WORDS.iter().chain(WHOLE);
    all.map(|&(name, wrong)| Slip { name, wrong }).collect()
}

fn top(word: u32) -> u32 {
    word >> 8 & 0xFF
}

fn words(list: &[u8]) -> Vec<u32> {
    let words = list.chunks_exact(4).map(|word| word.try_into());
    words.flatten().map(u32::from_le_bytes).collect()
}

/// The right check of a list with each word changed by its address; what is no word stays.
fn changed(list: &[u8], change: fn(usize, u32) -> u32) -> Profile {
    let words = words(list).into_iter().enumerate();
    let words = words.map(|(address, word)| change(address, word).to_le_bytes());
    let mut other: Vec<u8> = words.flatten().collect();
    other.extend(&list[other.len()..]);
    profile(&other)
}

/// Wrong about single words.
const WORDS: &[(&str, Wrong)] = &[
    ("MI is let through", |list| {
        changed(list, |_, word| match top(word) {
            0xEC | 0xED => word & !0xFF00 | NOP,
            _ => word,
        })
    }),
    ("an odd MI is let through", |list| {
        changed(list, |_, word| word | u32::from(top(word) == 0xED) << 9)
    }),
    ("LTR is taken for MI", |list| {
        changed(list, |_, word| match top(word) {
            0xEE | 0xEF => word & !0xFF00 | MI,
            _ => word,
        })
    }),
    ("RFS may load RR", |list| {
        changed(list, |_, word| match top(word) {
            0x08..=0x0F => word & !RR,
            _ => word,
        })
    }),
    ("a conditional jump may not load RR", |list| {
        changed(list, |_, word| match top(word) {
            0x10..=0x1F if word & RR != 0 && word >> 22 == 0 => RR | RFS,
            _ => word,
        })
    }),
    ("bit 17 is taken for bit 16", |list| {
        changed(list, |_, word| word | (word & RR << 1) >> 1)
    }),
    ("NOP may load RR", |list| {
        changed(list, |_, word| match top(word) {
            0xFF => word & !RR,
            _ => word,
        })
    }),
    ("any word may be at address 0", |list| {
        changed(list, |address, word| match (address, top(word)) {
            (0, 0xAC | 0xEC | 0xED) => word,
            (0, _) if word & RR == 0 => word & !0xFF00 | NOP,
            _ => word,
        })
    }),
    ("NOP may not be at address 0", |list| {
        changed(list, |address, word| match (address, top(word)) {
            (0, 0xFF) if word >> 22 == 0 => word & !0xFF00 | RTSR,
            _ => word,
        })
    }),
    ("RFS may be at address 0", |list| {
        changed(list, |address, word| match (address, top(word)) {
            (0, 0x08..=0x0F) if word & RR == 0 => word & !0x0F00,
            _ => word,
        })
    }),
    ("CAD is let through", |list| {
        changed(list, |_, word| match top(word) {
            0xAC => word & !0xFF00 | RTSR,
            _ => word,
        })
    }),
    ("CAWI is taken for CAD", |list| {
        changed(list, |_, word| match top(word) {
            0xAE | 0xAF => word & !0xFF00 | CAD,
            _ => word,
        })
    }),
    ("E8 is listed", |list| {
        changed(list, |_, word| word | u32::from(top(word) == 0xE8) << 10)
    }),
];

/// Wrong about the order, the address or the length.
const WHOLE: &[(&str, Wrong)] = &[
    ("the last offending address", |list| {
        let told = profile(list);
        let offends = |&address: &usize| {
            let nops = [0, 0xFF, 0, 0].repeat(address);
            profile(&[&nops[..], &list[4 * address..4 * address + 4]].concat()).answer == 25
        };
        match (0..list.len() / 4).rev().find(offends) {
            Some(last) if told.answer == 25 => Profile {
                address: last as u32,
                ..told
            },
            _ => told,
        }
    }),
    ("rule 3 is about address 1", |list| {
        let mut words = words(list);
        if words.len() > 1 && list.len() % 4 == 0 {
            words.swap(0, 1);
        }
        let words: Vec<u8> = words.iter().flat_map(|word| word.to_le_bytes()).collect();
        match profile(list).answer {
            2 => profile(list),
            _ => profile(&words),
        }
    }),
    ("rule 4 comes before 3", |list| match profile(list) {
        Profile {
            rule: 3, address, ..
        } if matches!(top(words(list)[0]), 0x78..=0x7F | 0xAC) => Profile {
            answer: 25,
            address,
            rule: 4,
        },
        told => told,
    }),
    ("rule 2 comes before 1", |list| match profile(list) {
        told @ Profile { rule: 1, .. } => {
            let loads = words(list)[told.address as usize] & RR != 0;
            let rule = 1 + u32::from(loads);
            Profile { rule, ..told }
        }
        told => told,
    }),
    ("no words are refused", |list| match list {
        [] => Profile {
            answer: 25,
            address: 0,
            rule: 3,
        },
        _ => profile(list),
    }),
    ("a part of a word counts nothing", |list| {
        profile(&list[..list.len() / 4 * 4])
    }),
    ("the words over 2,048 count nothing", |list| {
        profile(&list[..list.len().min(8192 + list.len() % 4)])
    }),
    ("a 2 by length is at 0", |list| match profile(list) {
        told @ Profile { address: 2048, .. } => Profile { address: 0, ..told },
        told => told,
    }),
    (
        "a 2 by length comes before a large word",
        |list| match profile(list) {
            told @ Profile { answer: 2, .. } if list.len() > 8192 || list.len() % 4 != 0 => {
                Profile {
                    address: 2048,
                    ..told
                }
            }
            told => told,
        },
    ),
    ("25 comes before 2", |list| {
        match changed(list, |_, word| word & 0x3F_FFFF) {
            told @ Profile { answer: 25, .. } => told,
            _ => profile(list),
        }
    }),
];
