//! Assembler, fixed spelling and lister, written from the paper's request L3 and the manual alone.

use crate::line::{self, Instruction};
use crate::summary::{self, Row};

/// Words in a list, at most.
pub const MOST: usize = 2048;

/// Why a text or a list is refused: 10-12 with the line, 2 and 6 with the address.
#[derive(Clone, Copy, Debug, PartialEq, Eq)]
pub struct Refusal {
    pub answer: u32,
    pub at: u32,
}

/// The rules. Those that can be set are wrong otherwise than by `Rules::new`, for the tests' own test.
#[derive(Clone)]
pub struct Rules {
    /// The manual's summary.
    pub rows: Vec<Row>,
    /// The word of an address without a line.
    pub gap: u32,
    /// An address may be that of the line before.
    pub equal_addresses: bool,
    /// The digits of a `U`, at most.
    pub user_digits: usize,
    /// A mark may stand twice.
    pub marks_twice: bool,
    /// ODD goes with every code.
    pub odd_anywhere: bool,
}

/// A text's lines as they were read: addresses rise.
pub struct Lines<'a>(Vec<(u32, Instruction<'a>)>);

impl Rules {
    /// The right ones.
    pub fn new() -> Self {
        Self {
            rows: summary::rows(),
            gap: 0xFF00,
            equal_addresses: false,
            user_digits: 1,
            marks_twice: false,
            odd_anywhere: false,
        }
    }

    /// The row of a mnemonic, in upper or lower case.
    pub fn named(&self, mnemonic: &[u8]) -> Option<&Row> {
        let same = |row: &&Row| row.mnemonic.as_bytes().eq_ignore_ascii_case(mnemonic);
        self.rows.iter().find(same)
    }

    /// Whether an address may follow.
    pub fn rises(&self, before: u32, address: u32) -> bool {
        before < address || self.equal_addresses && before == address
    }

    /// Reads a text.
    pub fn read(&self, text: &[u8]) -> Result<Lines<'_>, Refusal> {
        let mut lines: Vec<&[u8]> = text.split(|byte| *byte == b'\n').collect();
        // After the last newline there is a line only if it has a byte.
        if lines.last().map_or(false, |last| last.is_empty()) {
            lines.pop();
        }
        let (mut read, mut before) = (Vec::new(), None);
        for (at, line) in lines.into_iter().enumerate() {
            let refused = |answer| Refusal {
                answer,
                at: at as u32 + 1,
            };
            read.push(line::read(self, line, before).map_err(refused)?);
            before = read.last().map(|(address, _)| *address);
        }
        Ok(Lines(read))
    }

    /// The bytes of a text's words.
    pub fn assemble(&self, text: &[u8]) -> Result<Vec<u8>, Refusal> {
        let lines = self.read(text)?.0;
        let mut words = vec![self.gap; lines.last().map_or(0, |(last, _)| *last as usize + 1)];
        for (address, instruction) in lines {
            words[address as usize] = instruction.word();
        }
        Ok(bytes(&words))
    }

    /// The fixed spelling of a text, from its lines.
    pub fn spelling(&self, text: &[u8]) -> Result<Vec<u8>, Refusal> {
        let mut spelling = String::new();
        let mut next = 0;
        for (address, instruction) in self.read(text)?.0 {
            (next..address).for_each(|gap| spelling += &format!("{gap:03X} NOP\n"));
            spelling += &instruction.spell(address);
            next = address + 1;
        }
        Ok(spelling.into_bytes())
    }

    /// The text of the words in these bytes.
    pub fn list(&self, bytes: &[u8]) -> Result<Vec<u8>, Refusal> {
        let words: Vec<u32> = bytes.chunks_exact(4).map(word).collect();
        let over = words.iter().take(MOST).position(|word| *word >> 22 != 0);
        if over.is_some() || words.len() > MOST || bytes.len() % 4 != 0 {
            let at = over.unwrap_or(MOST) as u32;
            return Err(Refusal { answer: 2, at });
        }
        let mut text = String::new();
        for (at, word) in (0..).zip(words) {
            let instruction = self.taken_apart(word).ok_or(Refusal { answer: 6, at })?;
            text += &instruction.spell(at);
        }
        Ok(text.into_bytes())
    }

    /// What a word says, when its code is listed.
    pub fn taken_apart(&self, word: u32) -> Option<Instruction<'_>> {
        let row = self.rows.iter().find(|row| row.has(word))?;
        Some(Instruction {
            row,
            operands: row.operands.iter().map(|field| field.of(word)).collect(),
            rest: row.rest.map_or(0, |field| field.of(word)),
            odd: row.twin && word >> 8 & 1 == 1,
            rr: word >> 16 & 1 == 1,
            rni: word >> 17 & 1 == 1,
            user: word >> 18,
        })
    }
}

/// A word's four bytes, low byte first.
fn word(bytes: &[u8]) -> u32 {
    bytes
        .iter()
        .rev()
        .fold(0, |word, byte| word << 8 | u32::from(*byte))
}

/// The bytes of words.
pub fn bytes(words: &[u32]) -> Vec<u8> {
    words.iter().flat_map(|word| word.to_le_bytes()).collect()
}
