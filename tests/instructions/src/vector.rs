//! Vectors as the text has them.

use compare::describe::KINDS;
use interpreter::Marking;

/// A name and its number: a register, a flag, a line, the request.
pub type Term = (String, u32);

/// One vector.
pub struct Vector {
    /// The block's key.
    pub key: String,
    /// The line of the text that it begins at.
    pub line: usize,
    /// The word, 22 bits.
    pub word: u32,
    /// The marking, CP1661B where none is named.
    pub marking: Marking,
    /// What matters of the state before.
    pub before: Vec<Term>,
    /// What matters of the sample.
    pub sample: Vec<Term>,
    /// What must be after.
    pub after: Vec<Term>,
}

impl Vector {
    /// The number of a name in what must be after.
    pub fn gives(&self, name: &str) -> Option<u32> {
        number(&self.after, name)
    }

    /// The word with the modification that waits before.
    pub fn modified(&self) -> u32 {
        self.word | number(&self.before, "MOD").unwrap_or(0)
    }
}

fn number(terms: &[Term], name: &str) -> Option<u32> {
    terms
        .iter()
        .find(|(own, _)| own == name)
        .map(|&(_, number)| number)
}

/// The vectors of a text, or what is wrong with it.
pub fn read(text: &str) -> Result<Vec<Vector>, String> {
    let mut vectors = Vec::new();
    let mut key = String::new();
    for (line, content) in (1..).zip(text.lines()) {
        let mut words = content.split_whitespace();
        match words.next() {
            None => {}
            Some(first) if first.starts_with('#') => {}
            Some(first) if !content.starts_with(' ') => key = first.to_string(),
            Some(label) => {
                let words: Vec<&str> = words.collect();
                part(&mut vectors, &key, line, label, &words)
                    .ok_or_else(|| format!("line {line}: {}", content.trim()))?;
            }
        }
    }
    Ok(vectors)
}

/// Takes in a labelled line.
fn part(
    vectors: &mut Vec<Vector>,
    key: &str,
    line: usize,
    label: &str,
    words: &[&str],
) -> Option<()> {
    if label == "given" {
        let (word, before) = words.split_first()?;
        let (marking, before) = marked(before)?;
        vectors.push(Vector {
            key: key.to_string(),
            line,
            word: hexadecimal(word)?,
            marking,
            before: terms(before)?,
            sample: Vec::new(),
            after: Vec::new(),
        });
        return Some(());
    }
    let vector = vectors.last_mut()?;
    let terms = terms(words)?;
    match label {
        "sample" => vector.sample = terms,
        "gives" => vector.after = terms,
        _ => return None,
    }
    Some(())
}

/// The marking, when the first word names it, and the words after it.
fn marked<'a>(words: &'a [&'a str]) -> Option<(Marking, &'a [&'a str])> {
    let named = words.first().and_then(|word| word.strip_prefix("marking="));
    match named {
        Some(number) => Some((Marking::from_number(number.parse().ok()?)?, &words[1..])),
        None => Some((Marking::Cp1661b, words)),
    }
}

fn terms(words: &[&str]) -> Option<Vec<Term>> {
    let terms: Option<Vec<Vec<Term>>> = words.iter().copied().map(term).collect();
    Some(terms?.concat())
}

/// One word of a line; a pair is two terms.
fn term(word: &str) -> Option<Vec<Term>> {
    if let Some(name) = word.strip_prefix('+') {
        return Some(vec![(name.to_string(), 1)]);
    }
    if let Some(name) = word.strip_prefix('-') {
        return Some(vec![(name.to_string(), 0)]);
    }
    let (name, value) = word.split_once('=')?;
    if name == "request" {
        return Some(vec![(name.to_string(), request(value)?)]);
    }
    let value = hexadecimal(value)?;
    Some(match name.split_once(':') {
        Some((high, low)) => vec![
            (high.to_string(), value >> 8),
            (low.to_string(), value & 0xFF),
        ],
        None => vec![(name.to_string(), value)],
    })
}

/// `KIND:VALUE`, or `KIND` when the value is 0.
fn request(text: &str) -> Option<u32> {
    let (kind, value) = text.split_once(':').unwrap_or((text, "0"));
    let kind = KINDS.iter().position(|&own| own == kind)?;
    Some((kind as u32) << 16 | hexadecimal(value)?)
}

fn hexadecimal(text: &str) -> Option<u32> {
    u32::from_str_radix(text, 16).ok()
}
