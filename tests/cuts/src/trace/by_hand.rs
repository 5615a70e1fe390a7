//! Texts made by hand for one small deck: a read, an input that waits, COMPUTE low, RESET, a refusal.

use super::check::{Asked, LAST};
use super::Judge;
use compare::deck::Sections;
use compare::tally::Tally;
use interpreter::{Marking, STATE_BYTES};

/// The text of the whole trace.
const WHOLE: &str = include_str!("by_hand.txt");

/// R 3 2, IB 0 4, ISB 4 4.
const WORDS: [u32; 3] = [0xF832, 0xE004, 0xE444];

/// Data, lines and I0-I3.
const SAMPLES: [[u8; 4]; 9] = [
    [0x00, 0x00, 4, 0],
    [0x00, 0x00, 4, 0],
    [0xFF, 0xFF, 0, 0],
    [0x55, 0x80, 4 | 1, 0],
    [0x00, 0x00, 8, 0],
    [0x01, 0x00, 4 | 1 | 16, 4],
    [0x00, 0x00, 4, 0],
    [0x00, 0x00, 4, 0],
    [0x00, 0x00, 4, 0],
];

/// Windows, and their lines below the head line.
const WINDOWS: [(usize, usize, &str); 4] = [
    (8, LAST, "  8-9      not used"),
    (8, 8, "  8        not used"),
    (9, 12, "  9        not used"),
    (
        7,
        7,
        "  7        002 ISB 4 4                            refused      8: option not listed
           sample 0000 COMPUTE",
    ),
];

/// The line of a window that has no sample of the deck.
const NONE: &str = "  none of the attempts from 10 on: the deck has 9 samples";

/// The deck with R2 34 and R3 12.
fn deck() -> Vec<u8> {
    let mut state = [0; STATE_BYTES];
    (state[12], state[13]) = (0x34, 0x12);
    let words: Vec<u8> = WORDS.iter().flat_map(|word| word.to_le_bytes()).collect();
    let sections = Sections {
        words: &words,
        rows: &[],
        state: &state,
        samples: &SAMPLES.concat(),
    };
    sections.deck()
}

/// Checks the texts, and has the whole one tell the slips.
pub fn test(judge: &mut Judge, tally: &mut Tally) {
    let deck = deck();
    let asked = |from, to| Asked {
        name: "by-hand.deck",
        deck: &deck,
        marking: Marking::Cp1661b.number(),
        from,
        to,
    };
    let whole = asked(1, LAST);
    judge.check(&whole, [WHOLE, WHOLE], tally);
    judge.tell(&whole, [WHOLE, WHOLE], tally);
    for (from, to, lines) in WINDOWS {
        let text = with(|head| format!("{head}\n{lines}"));
        judge.check(&asked(from, to), [&text, WHOLE], tally);
    }
    let none = with(|_| NONE.to_string());
    judge.check(&asked(10, 12), [&none, WHOLE], tally);
}

/// The text with other lines for the trace, made from its head line.
fn with(lines: impl Fn(&str) -> String) -> String {
    let blocks = WHOLE.split("\n\n").enumerate();
    let blocks = blocks.map(|(at, block)| match (at, block.lines().next()) {
        (1, Some(head)) => lines(head),
        _ => block.to_string(),
    });
    blocks.collect::<Vec<String>>().join("\n\n")
}
