//! The bench host's text taken apart.

use super::fields::Change;

/// The texts of several decks; only a deck's name begins a line without a space.
pub fn decks(text: &str) -> Vec<&str> {
    let mut decks = Vec::new();
    let (mut begun, mut at) = (0, 0);
    for line in text.split_inclusive('\n') {
        if at > begun && !line.starts_with([' ', '\n']) {
            decks.push(&text[begun..at]);
            begun = at;
        }
        at += line.len();
    }
    decks.push(&text[begun..]);
    decks
}

/// What is shown of one deck: its name, then blocks of lines with a blank line after each.
pub struct Shown<'a> {
    pub name: &'a str,
    pub blocks: Vec<Vec<&'a str>>,
}

impl<'a> Shown<'a> {
    /// What this text shows, when a blank line ends it.
    pub fn of(text: &'a str) -> Option<Self> {
        let (name, text) = text.strip_suffix("\n\n")?.split_once('\n')?;
        let blocks = text.split("\n\n").map(|block| block.lines().collect());
        Some(Self {
            name,
            blocks: blocks.collect(),
        })
    }
}

/// The numbers in the block before the attempts.
#[derive(Debug, PartialEq, Eq)]
pub struct Head {
    pub answer: u32,
    /// The attempt that the answer refuses.
    pub refused: Option<u32>,
    pub attempts: u32,
    pub microcycles: u32,
}

impl Head {
    /// The head in these lines.
    pub fn of(block: &[&str]) -> Option<Self> {
        let entry = |name: &str| {
            let mut texts = block.iter().filter_map(|line| line.strip_prefix("  "));
            texts.find_map(|text| text.strip_prefix(name)?.strip_prefix("  "))
        };
        let count = |name: &str| entry(name)?.trim().parse().ok();
        let answer = entry("answer")?.trim();
        let refused = answer.split_once(", at attempt ");
        Some(Self {
            answer: answer.split_once(':')?.0.parse().ok()?,
            refused: refused.and_then(|(_, attempt)| attempt.parse().ok()),
            attempts: count("attempts")?,
            microcycles: count("microcycles")?,
        })
    }
}

/// The lines of the words in the same block; equal ones in a row may be named by their addresses alone.
pub fn words(block: &[&str]) -> Option<Vec<String>> {
    let first = block.iter().position(|line| line.starts_with("  words "));
    let end = block
        .iter()
        .position(|line| line.starts_with("  marking "))?;
    let mut words: Vec<String> = Vec::new();
    for line in &block[first.unwrap_or(end)..end] {
        let text = line.get(15..)?;
        let same = text.strip_suffix(" the same");
        match same.and_then(|range| range.split_once('-')) {
            Some((_, last)) => {
                let (last, tail) = (address(last)?, words.last()?.get(3..)?.to_string());
                words.extend((words.len()..=last).map(|at| format!("{at:03X}{tail}")));
            }
            None => words.push(text.to_string()),
        }
    }
    let addresses = words.iter().map(|text| text.get(..3).and_then(address));
    let counted = addresses.eq((0..words.len()).map(Some));
    counted.then_some(words)
}

fn address(text: &str) -> Option<usize> {
    usize::from_str_radix(text, 16).ok()
}

/// The block of the attempts.
pub struct Trace<'a> {
    pub attempts: Vec<Attempt<'a>>,
    /// The first and the last sample that was not used.
    pub unused: Option<(usize, usize)>,
}

/// One attempt.
pub struct Attempt<'a> {
    pub line: Line,
    /// The sample's line.
    pub sample: &'a str,
    pub changes: Vec<Change<'a>>,
}

/// An attempt's own line.
#[derive(Debug, PartialEq, Eq)]
pub struct Line {
    pub number: usize,
    pub word: String,
    pub outcome: String,
    pub came: Came,
}

/// What came of it.
#[derive(Debug, PartialEq, Eq)]
pub enum Came {
    /// Its microcycles, and the request's kind and value.
    Done(u32, String, String),
    /// The answer's number and text.
    Refused(String),
}

/// The names of the columns.
const COLUMNS: [&str; 6] = [
    "attempt",
    "word",
    "outcome",
    "microcycles",
    "request",
    "value",
];

/// What a line of a sample or of changes begins with.
const INDENT: &str = "           ";

/// So wide is a line at most.
const WIDTH: usize = 100;

/// The attempts in these lines, or what is wrong with them.
pub fn trace<'a>(block: &[&'a str]) -> Result<Trace<'a>, String> {
    let (head, lines) = block.split_first().ok_or("no trace")?;
    let starts = COLUMNS.map(|name| head.find(name));
    let mut trace = Trace {
        attempts: Vec::new(),
        unused: None,
    };
    for &line in lines {
        let bad = || format!("not understood: {line}");
        if line.ends_with(' ') || !line.is_ascii() || trace.unused.is_some() {
            return Err(bad());
        }
        if line.len() > WIDTH {
            return Err(format!("over {WIDTH} columns: {line}"));
        }
        if let Some(detail) = line.strip_prefix(INDENT) {
            let attempt = trace.attempts.last_mut().ok_or_else(bad)?;
            add(attempt, detail).ok_or_else(bad)?;
        } else if let Some(range) = line.strip_suffix("not used") {
            trace.unused = Some(unused(range).ok_or_else(bad)?);
        } else {
            let line = own_line(&starts, line).ok_or_else(bad)?;
            trace.attempts.push(Attempt {
                line,
                sample: "",
                changes: Vec::new(),
            });
        }
    }
    Ok(trace)
}

/// Takes a sample or changes into their attempt; the sample comes first.
fn add<'a>(attempt: &mut Attempt<'a>, detail: &'a str) -> Option<()> {
    match detail.strip_prefix("sample ") {
        Some(sample) if attempt.sample.is_empty() && attempt.changes.is_empty() => {
            attempt.sample = sample;
        }
        None if !attempt.sample.is_empty() => {
            for change in detail.split("  ") {
                let parts: Vec<&str> = change.split(' ').collect();
                attempt.changes.push(parts.try_into().ok()?);
            }
        }
        _ => return None,
    }
    Some(())
}

/// `  A-B  ` or `  A  `.
fn unused(range: &str) -> Option<(usize, usize)> {
    let range = range.strip_prefix("  ")?.strip_suffix("  ")?.trim_end();
    let (first, last) = range.split_once('-').unwrap_or((range, range));
    Some((first.parse().ok()?, last.parse().ok()?))
}

/// An attempt's own line, by the columns that the head line has.
fn own_line(starts: &[Option<usize>; 6], line: &str) -> Option<Line> {
    let start = |column: usize| starts.get(column).copied().flatten();
    let cell = |column: usize| {
        let from = start(column)?;
        let to = start(column + 1).unwrap_or(line.len()).min(line.len());
        let apart = line.get(from.checked_sub(2)?..from)? == "  ";
        apart.then_some(line.get(from..to)?.trim())
    };
    let outcome = cell(2)?.to_string();
    let came = match outcome.as_str() {
        "refused" => Came::Refused(line.get(start(3)?..)?.to_string()),
        _ => Came::Done(
            cell(3)?.parse().ok()?,
            cell(4)?.to_string(),
            cell(5).unwrap_or("").to_string(),
        ),
    };
    Some(Line {
        number: cell(0)?.parse().ok()?,
        word: cell(1)?.to_string(),
        outcome,
        came,
    })
}
