//! Lines of every mnemonic with every kind of piece behind it, and of what is no mnemonic.

use super::Cases;
use crate::summary::Row;

/// Numbers at every border, in every spelling; the last are none.
const NUMBERS: [&str; 21] = [
    "0",
    "1",
    "F",
    "f",
    "10",
    "0F",
    "FF",
    "fF",
    "100",
    "000ff",
    "7FF",
    "7ff",
    "800",
    "00000000000000000007FF",
    "100000000",
    "10000000000000000",
    "1000000000000000F",
    "G",
    "0x1",
    "-1",
    "1\r",
];
/// What may stand behind two operands.
const FURTHER: [&str; 6] = ["0", "F", "7FF", "1000", "ODD", "G"];
const MARKS: [&str; 4] = ["ODD", "RR", "RNI", "U5"];
const RIGHT_MARKS: [&str; 15] = [
    "odd", "Odd", "oDD", "rr", "rR", "Rr", "rni", "Rni", "rNI", "RNi", "u5", "U0", "UF", "uf", "ua",
];
const WRONG_MARKS: [&str; 30] = [
    "U", "u", "U05", "U00", "UG", "U:", "U/", "U@", "U`", "Ug", "U 5", "U16", "5U", "R", "RN",
    "RRR", "RNIR", "RNX", "RRNI", "OD", "ODDD", "0DD", "DD", "EVEN", "X", "ODD,", "RR;", "RR\t",
    "RNI\r", "\0",
];

pub fn all(cases: &mut Cases<'_>) {
    for row in cases.rules.rows.clone() {
        numbers(cases, &row);
        marks(cases, &row);
        spelled_otherwise(cases, &row);
    }
    names(cases);
}

/// A line with these pieces behind the mnemonic, at some address.
fn line(cases: &mut Cases<'_>, row: &Row, pieces: &[&str]) {
    let address = cases.random.one_of(&["0", "1", "003", "a"]);
    let line = [&[address, row.mnemonic], pieces].concat().join(" ");
    cases.text(line);
}

/// None to three numbers behind the mnemonic.
fn numbers(cases: &mut Cases<'_>, row: &Row) {
    line(cases, row, &[]);
    for first in NUMBERS {
        line(cases, row, &[first]);
        for second in NUMBERS {
            line(cases, row, &[first, second]);
            for third in FURTHER {
                line(cases, row, &[first, second, third]);
            }
        }
    }
    line(cases, row, &["0", "0", "0", "0"]);
}

/// Right operands for the row, with or without the don't-care one.
fn operands(cases: &mut Cases<'_>, row: &Row) -> Vec<String> {
    let rest = row.rest.filter(|_| cases.random.once_in(2));
    let fields = row.operands.iter().chain(&rest);
    let operands =
        fields.map(|field| format!("{:X}", cases.random.below(field.most() as usize + 1)));
    operands.collect()
}

/// Every order of every choice of marks, each mark twice, and marks that are none, at every place.
fn marks(cases: &mut Cases<'_>, row: &Row) {
    let mut orders: Vec<Vec<&str>> = vec![Vec::new()];
    let mut at = 0;
    while at < orders.len() {
        let longer = MARKS.iter().filter(|mark| !orders[at].contains(mark));
        let longer: Vec<_> = longer
            .map(|mark| [orders[at].as_slice(), &[*mark]].concat())
            .collect();
        orders.extend(longer);
        at += 1;
    }
    for order in &orders {
        let operands = operands(cases, row);
        let operands: Vec<&str> = operands.iter().map(String::as_str).collect();
        line(cases, row, &[operands.as_slice(), order].concat());
        let again = [order.as_slice(), &order[..order.len().min(1)]].concat();
        line(cases, row, &[operands.as_slice(), &again].concat());
    }
    for mark in MARKS.iter().chain(&RIGHT_MARKS).chain(&WRONG_MARKS) {
        let operands = operands(cases, row);
        for at in 0..=operands.len() {
            let mut pieces: Vec<&str> = operands.iter().map(String::as_str).collect();
            pieces.insert(at, mark);
            line(cases, row, &pieces);
            line(cases, row, &[pieces.as_slice(), &["RNI"]].concat());
            line(cases, row, &[pieces.as_slice(), &["0"]].concat());
        }
    }
}

/// The mnemonic in every mixture of cases, shortened, lengthened and with a letter changed.
fn spelled_otherwise(cases: &mut Cases<'_>, row: &Row) {
    let operands: String = row.operands.iter().map(|_| " 0").collect();
    let mut line =
        |mnemonic: &[u8]| cases.text([b"000 ", mnemonic, operands.as_bytes(), b"\n"].concat());
    let name = row.mnemonic.as_bytes();
    for mixture in 0..1_u32 << name.len() {
        let letters = name.iter().enumerate();
        let mixed = letters.map(|(at, letter)| {
            if mixture >> at & 1 == 1 {
                letter.to_ascii_lowercase()
            } else {
                *letter
            }
        });
        line(&mixed.collect::<Vec<u8>>());
    }
    for length in 0..name.len() {
        line(&name[..length]);
        line(&name[name.len() - length..]);
    }
    for byte in 0..=255_u8 {
        line(&[name, &[byte]].concat());
        line(&[&[byte], name].concat());
    }
    // A letter that differs by one bit, the one of lower case among them.
    for at in 0..name.len() {
        for bit in 0..8 {
            let mut changed = name.to_vec();
            changed[at] ^= 1 << bit;
            line(&changed);
        }
    }
}

/// Everything of one to three letters and digits, and longer ones by chance.
fn names(cases: &mut Cases<'_>) {
    const LETTERS: &[u8; 36] = b"ABCDEFGHIJKLMNOPQRSTUVWXYZ0123456789";
    let mut names: Vec<Vec<u8>> = vec![Vec::new()];
    let mut from = 0;
    for _ in 0..3 {
        let to = names.len();
        for at in from..to {
            let longer = LETTERS
                .iter()
                .map(|letter| [names[at].as_slice(), &[*letter]].concat());
            names.extend(longer.collect::<Vec<_>>());
        }
        from = to;
    }
    for _ in 0..5000 {
        let length = 4 + cases.random.below(3);
        names.push((0..length).map(|_| cases.random.one_of(LETTERS)).collect());
    }
    for name in names {
        let operands = cases.random.one_of(&["", " 0", " 0 0"]);
        cases.text([b"0 ", name.as_slice(), operands.as_bytes()].concat());
    }
}
