//! Lists of words: every low half there and back, unlisted ones, those out of range, lengths and room.

use super::Cases;
use crate::call::Function;
use crate::rules::{bytes, MOST};

/// Values of bits 16-21: each alone, none, all, and every user digit.
const HIGH: [u32; 22] = [
    0, 1, 2, 3, 4, 8, 12, 16, 20, 24, 28, 32, 36, 40, 44, 48, 52, 56, 60, 61, 62, 63,
];
const LISTED: u32 = 0xFF00;
const UNLISTED: u32 = 0x7800;

pub fn all(cases: &mut Cases<'_>) {
    everything(cases);
    unlisted(cases);
    out_of_range(cases);
    lengths(cases);
    for words in [
        &[LISTED; 3][..],
        &[0x3F_AC22],
        &[0xB7_42, 0x0800, 0x0FFF],
        &[LISTED, UNLISTED],
        &[1 << 22],
        &[0; MOST],
    ] {
        cases.rooms(Function::List, &bytes(words));
    }
}

/// All listed words with these high bits, 2,048 at a time.
fn everything(cases: &mut Cases<'_>) {
    let listed: Vec<u32> = (0..=0xFFFF)
        .filter(|low| cases.rules.taken_apart(*low).is_some())
        .collect();
    for high in HIGH {
        for part in listed.chunks(MOST) {
            let words: Vec<u32> = part.iter().map(|low| high << 16 | low).collect();
            cases.list(&bytes(&words));
        }
    }
}

/// Every top byte with its designators, alone and as the first, a middle and the last word.
fn unlisted(cases: &mut Cases<'_>) {
    for low in (0..=0xFFFF_u32).step_by(17) {
        cases.list(&bytes(&[low]));
    }
    for top in 0..=0xFF_u32 {
        let word =
            top << 8 | cases.random.below(256) as u32 | (cases.random.below(64) as u32) << 16;
        for (length, at) in [(1, 0), (2, 0), (2, 1), (5, 2), (5, 4), (40, 39)] {
            let mut words = vec![LISTED; length];
            words[at] = word;
            cases.list(&bytes(&words));
            // The first unlisted one decides.
            words[length - 1] = UNLISTED;
            cases.list(&bytes(&words));
        }
    }
}

/// Words of 2^22 and more, alone, with unlisted ones, and beyond the 2,048th.
fn out_of_range(cases: &mut Cases<'_>) {
    let large = [
        (1 << 22) - 1,
        1 << 22,
        1 << 22 | LISTED,
        1 << 23 | LISTED,
        1 << 24 | LISTED,
        1 << 31 | LISTED,
        u32::MAX,
        u32::MAX >> 10,
    ];
    for word in large {
        for (length, at) in [
            (1, 0),
            (2, 1),
            (9, 4),
            (2048, 2047),
            (2049, 2047),
            (2049, 2048),
            (2050, 2049),
        ] {
            let mut words = vec![LISTED; length];
            words[at] = word;
            cases.list(&bytes(&words));
            words[0] = UNLISTED;
            cases.list(&bytes(&words));
            words[length / 2] = word;
            cases.list(&bytes(&words));
        }
    }
}

/// Lengths about the border and no multiple of 4, with good, unlisted and large words.
fn lengths(cases: &mut Cases<'_>) {
    for word in [LISTED, UNLISTED, 1 << 22, 0] {
        let words = bytes(&[word; MOST + 3]);
        let about = (0..40).chain(4 * MOST - 9..words.len());
        for length in about {
            cases.list(&words[..length]);
        }
        // A part of a word is no word.
        for length in [1, 2, 3] {
            cases.list(&[&bytes(&[LISTED, LISTED])[..], &[0xFF; 3][..length]].concat());
            cases.list(&[&bytes(&[LISTED, UNLISTED])[..], &[0xFF; 3][..length]].concat());
        }
    }
}
