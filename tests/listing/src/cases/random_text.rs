//! Texts and lists by chance.

use super::Cases;
use crate::random::Random;
use crate::rules::bytes;
use crate::summary::{Field, Row};

/// So many of them, texts and lists in turn, three texts to a list.
pub fn all(cases: &mut Cases<'_>, count: usize) {
    let rows = cases.rules.rows.clone();
    for at in 0..count {
        if at % 4 == 3 {
            let list = list(&rows, &mut cases.random);
            cases.list(&list);
        } else {
            let text = text(&rows, &mut cases.random);
            cases.text(text);
        }
    }
}

/// Lines at rising addresses, damaged in every other text.
fn text(rows: &[Row], random: &mut Random) -> Vec<u8> {
    let lines = if random.once_in(400) {
        random.below(2049)
    } else {
        random.below(9)
    };
    let (mut text, mut address) = (String::new(), 0);
    for _ in 0..lines {
        address += if random.once_in(4) {
            random.below(5)
        } else {
            0
        };
        text += &line(rows, random, address);
        text.push('\n');
        // Equal, at times.
        address += usize::from(!random.once_in(300));
    }
    if random.once_in(3) {
        text.pop();
    }
    let mut text = text.into_bytes();
    if random.once_in(2) {
        for _ in 0..=random.below(2) {
            damage(&mut text, random);
        }
    }
    text
}

/// A right line, its pieces spelled and spaced by chance.
fn line(rows: &[Row], random: &mut Random, address: usize) -> String {
    let row = &rows[random.below(rows.len())];
    let mut pieces = vec![number(random, address), row.mnemonic.to_string()];
    for field in &row.operands {
        pieces.push(operand(random, *field));
    }
    if let Some(field) = row.rest.filter(|_| random.once_in(2)) {
        pieces.push(operand(random, field));
    }
    let mut marks = vec![
        "RR".to_string(),
        "RNI".to_string(),
        format!("U{:X}", random.below(16)),
    ];
    if row.twin {
        marks.push("ODD".to_string());
    }
    marks.retain(|_| random.once_in(3));
    random.shuffle(&mut marks);
    pieces.extend(marks);
    let mut line = String::new();
    for piece in pieces {
        line += if line.is_empty() && !random.once_in(6) {
            ""
        } else {
            " "
        };
        line += &" ".repeat(if random.once_in(6) {
            random.below(4)
        } else {
            0
        });
        line.extend(piece.chars().map(|letter| {
            if random.once_in(3) {
                letter.to_ascii_lowercase()
            } else {
                letter
            }
        }));
    }
    line + &" ".repeat(if random.once_in(6) {
        random.below(3)
    } else {
        0
    })
}

/// An operand, now and then too large by one.
fn operand(random: &mut Random, field: Field) -> String {
    let most = field.most() as usize;
    let value = match random.below(60) {
        0 => most + 1,
        1..=10 => most,
        11..=20 => 0,
        _ => random.below(most + 1),
    };
    number(random, value)
}

fn number(random: &mut Random, value: usize) -> String {
    let zeros = if random.once_in(5) {
        random.below(12)
    } else {
        0
    };
    "0".repeat(zeros) + &format!("{value:X}")
}

/// A byte changed, put in or taken out, or a part taken out or doubled.
fn damage(text: &mut Vec<u8>, random: &mut Random) {
    let at = random.below(text.len() + 1);
    let to = text.len().min(at + random.below(12));
    let likely = *b"  \n\r\t\x000123456789ABCDEFabcdefRUOIN\x80\xFF,;-";
    match random.below(6) {
        0 => drop(text.drain(at..to)),
        1 => {
            let part = text[at..to].to_vec();
            text.splice(at..at, part);
        }
        2 | 3 => text.insert(at, random.one_of(&likely)),
        _ if at < text.len() => text[at] = random.one_of(&likely),
        _ => (),
    }
}

/// Words of rows, with an unlisted or a large one now and then, and lengths that are no multiple of 4.
fn list(rows: &[Row], random: &mut Random) -> Vec<u8> {
    let length = if random.once_in(400) {
        random.below(2060)
    } else {
        random.below(24)
    };
    let mut words = Vec::with_capacity(length);
    for _ in 0..length {
        let row = &rows[random.below(rows.len())];
        let fields = row.operands.iter().chain(&row.rest);
        let word = fields.fold(row.word, |word, field| {
            word | (random.below(field.most() as usize + 1) as u32) << field.low
        });
        let odd = u32::from(row.twin && random.once_in(2)) << 8;
        words.push(match random.below(80) {
            0 => random.below(1 << 22) as u32,
            1 => word | 1 << (22 + random.below(10)),
            _ => word | odd | (random.below(64) as u32) << 16,
        });
    }
    let mut list = bytes(&words);
    if random.once_in(12) {
        list.truncate(list.len().saturating_sub(random.below(4)));
    }
    list
}
