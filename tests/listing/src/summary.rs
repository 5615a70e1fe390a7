//! The manual's summary 5.3.2 as 01 corrects it, and the bits of a word by it.

/// Typed from the manual: mnemonic, code, fields.
const TYPED: &str = include_str!("summary.txt");

/// Some bits of a word.
#[derive(Clone, Copy)]
pub struct Field {
    /// The lowest.
    pub low: u32,
    /// How many.
    pub width: u32,
}

/// A line of the summary.
#[derive(Clone)]
pub struct Row {
    /// The mnemonic, in upper case.
    pub mnemonic: &'static str,
    /// The word with every field 0, the even one of a pair.
    pub word: u32,
    /// Whether the odd code is its twin.
    pub twin: bool,
    /// The operands, from the highest bits on.
    pub operands: Vec<Field>,
    /// The bits that the summary marks x.
    pub rest: Option<Field>,
}

impl Field {
    /// The largest number that it holds.
    pub fn most(self) -> u32 {
        (1 << self.width) - 1
    }

    /// Its hexadecimal digits.
    pub fn digits(self) -> usize {
        (self.width as usize + 3) / 4
    }

    /// What it holds in a word.
    pub fn of(self, word: u32) -> u32 {
        word >> self.low & self.most()
    }
}

impl Row {
    /// The row has this word's low half: it differs in the fields and the odd code's bit alone.
    pub fn has(&self, word: u32) -> bool {
        let differs = (word ^ self.word) & 0xFFFF & !(u32::from(self.twin) << 8);
        let fields = self.operands.iter().chain(&self.rest);
        // Most rows are told apart by the top digit.
        differs >> 12 == 0
            && fields.fold(differs, |bits, field| bits & !(field.most() << field.low)) == 0
    }
}

/// The rows in the manual's order.
pub fn rows() -> Vec<Row> {
    let mut format = "";
    let mut rows = Vec::new();
    for line in TYPED.lines() {
        let columns: Vec<&'static str> = line.split(' ').collect();
        if columns[0].ends_with('.') {
            format = columns[0];
        } else {
            rows.push(row(format, &columns));
        }
    }
    rows
}

fn row(format: &str, columns: &[&'static str]) -> Row {
    let field = |at: usize, low, width| (columns[at], Field { low, width });
    let (word, fields) = match format {
        "A." => (
            code(columns[1], 12) | code(columns[2], 11),
            vec![field(3, 0, 11)],
        ),
        "B." => (
            code(columns[1], 12) | code(columns[2], 8),
            vec![field(3, 0, 8)],
        ),
        "C." => (code(columns[1], 12), vec![field(2, 4, 8), field(3, 0, 4)]),
        _ => (code(columns[1], 8), vec![field(2, 4, 4), field(3, 0, 4)]),
    };
    let (rest, operands): (Vec<_>, Vec<_>) = fields.into_iter().partition(|(name, _)| *name == "x");
    // Two of them are neighbours, and taken together.
    let rest = rest.into_iter().map(|(_, field)| field);
    Row {
        mnemonic: columns[0],
        word,
        twin: columns[1].contains('/'),
        operands: operands.into_iter().map(|(_, field)| field).collect(),
        rest: rest.reduce(|high, low| Field {
            low: low.low,
            width: high.width + low.width,
        }),
    }
}

/// A code as it is printed, the even one of a pair, from a bit on.
fn code(printed: &str, low: u32) -> u32 {
    let even = printed.split('/').next().unwrap_or(printed);
    u32::from_str_radix(even, 16).expect("a code is hexadecimal") << low
}
