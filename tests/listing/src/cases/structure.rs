//! Texts by their lines: newlines and spaces, addresses, gaps, and which bad line decides.

use super::Cases;
use crate::call::Function;

/// Addresses that are none, at the border, and spelled otherwise.
const ADDRESSES: [&str; 26] = [
    "0",
    "000",
    "00000000000000000000",
    "1",
    "2",
    "3",
    "a",
    "A",
    "0fF",
    "7FE",
    "7FF",
    "7ff",
    "0000000000000000007FF",
    "800",
    "FFF",
    "fff",
    "1000",
    "100000000",
    "10000000000000000",
    "100000000000000001",
    "G",
    "0x1",
    "-1",
    "1H",
    "NOP",
    "1\t",
];

pub fn all(cases: &mut Cases<'_>) {
    newlines(cases);
    addresses(cases);
    faults(cases);
    long_texts(cases);
    long_lines(cases);
    rooms(cases);
}

/// Lines and what is none, with every end and every kind of space.
fn newlines(cases: &mut Cases<'_>) {
    const PARTS: [&str; 14] = [
        "",
        "\n",
        "\n\n",
        " ",
        "  \n",
        "0",
        "0\n",
        "0 NOP",
        "0 NOP\n",
        "  0   NOP  \n",
        "1 RR RR\n",
        "1 R 2 3 RR\n",
        "\r\n",
        "\t",
    ];
    for first in PARTS {
        for second in PARTS {
            for third in PARTS {
                cases.text([first, second, third].concat());
            }
        }
    }
    for space in 0..=255_u8 {
        let space = &[space][..];
        let pieces: [&[u8]; 7] = [b"3", b"CW", b"4", b"2", b"ODD", b"RR", b"U5"];
        cases.text(pieces.join(space));
        for at in 1..pieces.len() {
            cases.text([pieces[..at].join(&b" "[..]), pieces[at..].join(&b" "[..])].join(space));
        }
        cases.text([space, b"3 NOP"].concat());
        cases.text([b"3 NOP", space].concat());
    }
    for many in 0..40 {
        cases.text([" ".repeat(many).as_str(), "3", " NOP", &" ".repeat(many)].concat());
        cases.text(["3 LL", " FF", " 2"].join(&" ".repeat(many)));
    }
}

/// One to three lines with every choice of addresses.
fn addresses(cases: &mut Cases<'_>) {
    for first in ADDRESSES {
        cases.text(format!("{first} NOP"));
        for second in ADDRESSES {
            cases.text(format!("{first} NOP\n{second} LL 12 3\n"));
            let third = cases.random.one_of(&ADDRESSES);
            cases.text(format!("{first} JMP 1\n{second} NOP\n{third} RTSR\n"));
        }
    }
    for address in 0..=0x801 {
        cases.text(format!("{address:X} JMP {address:x} RNI"));
    }
}

/// Three lines, each with any of the faults 10, 11 and 12.
fn faults(cases: &mut Cases<'_>) {
    let line = |faults: u32, address: usize| {
        let address = if faults & 4 != 0 {
            "800".to_string()
        } else {
            address.to_string()
        };
        let mnemonic = if faults & 1 != 0 { "SWB" } else { "SW" };
        let operands = if faults & 2 != 0 { "1 10" } else { "1 F" };
        format!("{address} {mnemonic} {operands}\n")
    };
    for all in 0..512 {
        let lines: String = (0..3).map(|at| line(all >> (3 * at) & 7, at + 1)).collect();
        cases.text(lines);
    }
    // A line without a mnemonic is a 10, whatever its address.
    for line in ["", " ", "1", "800", "G", "G  ", "NOP", "1 ", "RR RR"] {
        cases.text(format!("1 NOP\n{line}\n2 NOP"));
        cases.text(format!("1 NOP\n{line}"));
    }
}

/// All 2,048 addresses, more lines than that, and a bad one at any place.
fn long_texts(cases: &mut Cases<'_>) {
    let lines: Vec<String> = (0..2048_usize)
        .map(|at| format!("{at:x} LL {:X} {:x}", at & 255, at >> 7))
        .collect();
    cases.text(lines.join("\n"));
    cases.text(lines.join("\n") + "\n");
    for more in ["\n", " ", "7FF NOP", "800 NOP", "800 NOPE", "800 NOP 100"] {
        cases.text(lines.join("\n") + "\n" + more);
    }
    for step in 2..40 {
        let some: Vec<&str> = lines.iter().step_by(step).map(String::as_str).collect();
        cases.text(some.join(" \n "));
    }
    for bad in ["7FF NOPE", "7FF NOP 100", "0 NOP", ""] {
        for at in [1, 2, 255, 256, 257, 1023, 1024, 2046, 2047] {
            let mut lines: Vec<&str> = lines.iter().map(String::as_str).collect();
            lines[at] = bad;
            cases.text(lines.join("\n"));
        }
    }
}

/// Numbers of many digits, lines of many spaces, and texts of more than 65,536 bytes.
fn long_lines(cases: &mut Cases<'_>) {
    for many in [255, 256, 4095, 65_535, 65_536, 70_000] {
        let (zeros, spaces) = ("0".repeat(many), " ".repeat(many));
        cases.text(format!("{zeros}3 JMP {zeros}7fF RR"));
        cases.text(format!("{zeros}800 JMP 7FF"));
        cases.text(format!("1{zeros} JMP 7FF"));
        cases.text(format!("3 JMP 1{zeros}"));
        cases.text(format!("3 NOP {zeros}U5"));
        cases.text(format!("3 NOP U{zeros}"));
        cases.text(format!("3 {zeros}"));
        cases.text(format!("{spaces}3{spaces}NOP{spaces}U5{spaces}\n{spaces}"));
        cases.text(format!("{spaces}3{spaces}NOP{spaces}U5{spaces}\n"));
    }
    for many in [0, 31, 32, 33, 100] {
        let spaces = " ".repeat(many);
        let lines = (0..2048_usize).map(|at| format!("{at:X}{spaces} RI {:x}\n", at & 15));
        let lines: String = lines.collect();
        cases.text(&lines);
        cases.text(lines + "7FF NOP");
    }
}

/// Room of every length, for texts that are accepted and refused.
fn rooms(cases: &mut Cases<'_>) {
    let texts = [
        "",
        "\n",
        "0 NOP",
        "0 NOPE",
        "0 NOP 100",
        "800 NOP",
        "3 CW 4 2 ODD RR U5",
        "7FF NOP",
        "1 R 1 2\n0 R 1 2",
        "2 JMP 7FF\n10 LL FF 2 RNI\n",
    ];
    for text in texts {
        cases.rooms(Function::Assemble, text.as_bytes());
        if let Ok(words) = cases.rules.assemble(text.as_bytes()) {
            cases.rooms(Function::List, &words);
        }
        for room in 0..90 {
            let due = cases.rules.assemble(text.as_bytes());
            cases.call(Function::Assemble, text.as_bytes(), room, due);
        }
    }
}
