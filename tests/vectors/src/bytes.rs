//! The machine's part of a vector: bytes in hexadecimal, to be replayed without knowing any name.

use crate::readable::runs;
use crate::row::Row;
use crate::setting::{Sample, Setting};
use crate::vector::Vector;
use interpreter::{Marking, Report};

/// Where the bytes of a state are parted for the eye.
const PARTS: [usize; 13] = [12, 14, 1, 1, 2, 2, 2, 2, 1, 1, 1, 2, 1];

/// What a vector's bytes say.
#[derive(Default)]
pub struct Bytes {
    /// The marking, nothing where it is CP1661B.
    pub marking: Vec<u8>,
    /// The deck.
    pub deck: Vec<u8>,
    /// Answer, attempts, microcycles.
    pub report: Vec<u8>,
    /// The places of the attempts made.
    pub requests: Vec<u8>,
    /// The state after.
    pub state: Vec<u8>,
}

/// The lines of a vector.
pub fn text(vector: &Vector) -> String {
    let left = &vector.left;
    let mut lines = vec!["bytes".to_string()];
    let setting = &vector.draft.setting;
    if setting.marking != Marking::Cp1661b {
        let number = setting.marking.number();
        lines.push(labelled("marking", &hexadecimal(&number.to_le_bytes())));
    }
    let deck = deck(setting);
    lines.extend(deck.iter().map(|line| labelled("deck", line)));
    lines.push(labelled("report", &report(left.report)));
    let requests: Vec<String> = vector
        .requests()
        .iter()
        .map(|request| hexadecimal(&request.to_le_bytes()))
        .collect();
    lines.push(labelled("requests", &requests.join(" ")));
    lines.push(labelled("state", &state(&left.state)));
    lines.join("\n") + "\n"
}

fn labelled(label: &str, content: &str) -> String {
    format!("    {label:<10}{content}").trim_end().to_string()
}

fn hexadecimal(bytes: &[u8]) -> String {
    bytes.iter().map(|byte| format!("{byte:02X}")).collect()
}

fn report(report: Report) -> String {
    let numbers = [report.answer, report.attempts, report.microcycles];
    numbers
        .map(|number| hexadecimal(&number.to_le_bytes()))
        .join(" ")
}

/// The four sections, each from its count on. A word that repeats has a line of its own.
fn deck(setting: &Setting) -> Vec<String> {
    let mut lines = vec![count(setting.words.len())];
    let mut own = true;
    for run in runs(&setting.words) {
        let word = hexadecimal(&run[0].to_le_bytes());
        if run.len() > 1 {
            lines.push(format!("{word} x {}", run.len()));
            own = false;
            continue;
        }
        match lines.last_mut() {
            Some(line) if own => *line += &format!(" {word}"),
            _ => lines.push(word),
        }
        own = true;
    }
    lines.push(section(setting.rows.iter().map(Row::bytes)));
    lines.push(format!("{} {}", count(1), state(&setting.state.to_bytes())));
    lines.push(section(setting.samples.iter().map(Sample::bytes)));
    lines
}

fn count(items: usize) -> String {
    hexadecimal(&(items as u16).to_le_bytes())
}

fn section<const SIZE: usize>(items: impl Iterator<Item = [u8; SIZE]>) -> String {
    let items: Vec<String> = items.map(|item| hexadecimal(&item)).collect();
    let parts = [vec![count(items.len())], items].concat();
    parts.join(" ")
}

fn state(bytes: &[u8]) -> String {
    let mut rest = bytes;
    let mut parts = Vec::new();
    for length in PARTS {
        let (part, after) = rest.split_at(length.min(rest.len()));
        parts.push(hexadecimal(part));
        rest = after;
    }
    parts.join(" ")
}

/// Reads the bytes of every vector in a text, by name.
pub fn read(text: &str) -> Result<Vec<(String, Bytes)>, String> {
    let mut vectors: Vec<(String, Bytes)> = Vec::new();
    let mut within = false;
    for (number, line) in (1..).zip(text.lines()) {
        if let Some(name) = line.strip_prefix("vector ") {
            vectors.push((name.trim().to_string(), Bytes::default()));
            within = false;
        } else if !line.starts_with(' ') {
            within = line == "bytes";
        } else if let (true, Some((_, bytes))) = (within, vectors.last_mut()) {
            bytes
                .take(line)
                .ok_or_else(|| format!("line {number}: {}", line.trim()))?;
        }
    }
    Ok(vectors)
}

impl Bytes {
    /// Takes in a line: a label, hexadecimal digits, and how often where not once.
    fn take(&mut self, line: &str) -> Option<()> {
        let (content, times) = match line.split_once(" x ") {
            Some((content, times)) => (content, times.trim().parse().ok()?),
            None => (line, 1),
        };
        let mut words = content.split_whitespace();
        let to = match words.next()? {
            "marking" => &mut self.marking,
            "deck" => &mut self.deck,
            "report" => &mut self.report,
            "requests" => &mut self.requests,
            "state" => &mut self.state,
            _ => return None,
        };
        let digits: String = words.collect();
        to.extend(parsed(&digits)?.repeat(times));
        Some(())
    }
}

/// Two digits to a byte, and nothing but digits.
fn parsed(digits: &str) -> Option<Vec<u8>> {
    let digit = |character: char| character.to_digit(16).map(|digit| digit as u8);
    let digits: Vec<u8> = digits.chars().map(digit).collect::<Option<_>>()?;
    let bytes = digits.chunks_exact(2);
    let whole = bytes.remainder().is_empty();
    whole.then(|| bytes.map(|pair| pair[0] << 4 | pair[1]).collect())
}
