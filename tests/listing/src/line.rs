//! One line: read from its pieces, spelled, and as a word.

use crate::rules::Rules;
use crate::summary::Row;

/// The highest address.
pub const LAST: u32 = 0x7FF;

/// What a line or a word says, apart from its address.
#[derive(Clone)]
pub struct Instruction<'a> {
    pub row: &'a Row,
    pub operands: Vec<u32>,
    /// The don't-care bits.
    pub rest: u32,
    pub odd: bool,
    pub rr: bool,
    pub rni: bool,
    pub user: u32,
}

/// The line's address and instruction after the address before it, or 10, 11 or 12.
pub fn read<'a>(
    rules: &'a Rules,
    line: &[u8],
    before: Option<u32>,
) -> Result<(u32, Instruction<'a>), u32> {
    let pieces: Vec<&[u8]> = line
        .split(|byte| *byte == b' ')
        .filter(|piece| !piece.is_empty())
        .collect();
    let row = pieces
        .get(1)
        .and_then(|piece| rules.named(piece))
        .ok_or(10_u32)?;
    let instruction = instruction(rules, row, &pieces[2..]).ok_or(11_u32)?;
    let address = number(pieces[0], LAST)
        .filter(|address| before.map_or(true, |before| rules.rises(before, *address)))
        .ok_or(12_u32)?;
    Ok((address, instruction))
}

/// What stands behind a mnemonic: operands, perhaps the don't-care operand, marks.
fn instruction<'a>(rules: &Rules, row: &'a Row, pieces: &[&[u8]]) -> Option<Instruction<'a>> {
    let needed = row.operands.len();
    let operands = row.operands.iter().enumerate();
    let operands = operands.map(|(at, field)| number(pieces.get(at)?, field.most()));
    let mut read = Instruction {
        row,
        operands: operands.collect::<Option<_>>()?,
        rest: 0,
        odd: false,
        rr: false,
        rni: false,
        user: 0,
    };
    let mut marks = &pieces[needed..];
    if let (Some(field), Some((first, others))) = (row.rest, marks.split_first()) {
        if first.iter().all(u8::is_ascii_hexdigit) {
            read.rest = number(first, field.most())?;
            marks = others;
        }
    }
    read_marks(rules, &mut read, marks)?;
    Some(read)
}

fn read_marks(rules: &Rules, read: &mut Instruction<'_>, marks: &[&[u8]]) -> Option<()> {
    let mut user = None;
    for mark in marks {
        let again = match mark.to_ascii_uppercase().as_slice() {
            b"ODD" if read.row.twin || rules.odd_anywhere => std::mem::replace(&mut read.odd, true),
            b"RR" => std::mem::replace(&mut read.rr, true),
            b"RNI" => std::mem::replace(&mut read.rni, true),
            [b'U', digits @ ..] if (1..=rules.user_digits).contains(&digits.len()) => {
                user.replace(number(digits, 0xF)?).is_some()
            }
            _ => return None,
        };
        if again && !rules.marks_twice {
            return None;
        }
    }
    read.user = user.unwrap_or(0);
    Some(())
}

/// A hexadecimal number that isn't larger than the most.
fn number(piece: &[u8], most: u32) -> Option<u32> {
    let digits = piece.iter().map(|byte| char::from(*byte).to_digit(16));
    digits
        .into_iter()
        .try_fold(0_u32, |number, digit| {
            Some(number.saturating_mul(16).saturating_add(digit?))
        })
        .filter(|number| *number <= most)
}

impl Instruction<'_> {
    /// The fixed spelling at an address, with its newline.
    pub fn spell(&self, address: u32) -> String {
        let mut line = format!("{address:03X} {}", self.row.mnemonic);
        for (field, operand) in self.row.operands.iter().zip(&self.operands) {
            line += &format!(" {operand:00$X}", field.digits());
        }
        if let Some(field) = self.row.rest.filter(|_| self.rest != 0) {
            line += &format!(" {:01$X}", self.rest, field.digits());
        }
        for (mark, set) in [(" ODD", self.odd), (" RR", self.rr), (" RNI", self.rni)] {
            if set {
                line += mark;
            }
        }
        if self.user != 0 {
            line += &format!(" U{:X}", self.user);
        }
        line + "\n"
    }

    /// The word of 22 bits.
    pub fn word(&self) -> u32 {
        let operands = self.row.operands.iter().zip(&self.operands);
        let fields = operands.chain(self.row.rest.iter().zip(Some(&self.rest)));
        let word = fields.fold(self.row.word, |word, (field, value)| {
            word | value << field.low
        });
        let marks = [(8, self.odd), (16, self.rr), (17, self.rni)];
        let word = marks
            .iter()
            .fold(word, |word, (bit, set)| word | u32::from(*set) << bit);
        word | self.user << 18
    }
}
