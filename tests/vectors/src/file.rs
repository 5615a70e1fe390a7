//! The file of a code.

use crate::choose::Reach;
use crate::code::{Code, Format};
use crate::listed::Lines;
use crate::meaning;
use crate::vector::Vector;
use crate::{bytes, expected, readable};
use compare::flags;
use interpreter::Marking;

/// Where the text comes from and what it is for.
const ORIGIN: &str = "\
Written by `make vectors` from the engine's results, each checked by the independent interpreter.
To replay a vector, hand over the bytes of its `deck` lines; what comes back must be the bytes of
its `report`, `requests` and `state` lines. README.md tells more.";

/// Where a vector has another marking than CP1661B.
const MARKED: &str = "\
A vector with a `marking` line is run under that marking, all others under 1661, CP1661B.";

/// The whole text.
pub fn text(code: &Code, reach: &Reach, vectors: &[Vector], lines: &Lines) -> String {
    let mut text = head(code, reach, vectors);
    for vector in vectors {
        text += "\n\n";
        text += &format!("vector {}\n# {}\n", vector.draft.name, vector.draft.shows);
        text += marking(vector.draft.setting.marking);
        text += &readable::text(code, &vector.draft.setting, lines);
        text += &expected::text(vector);
        text += &bytes::text(vector);
    }
    text
}

/// For a reader; CP1661B goes without saying.
fn marking(marking: Marking) -> &'static str {
    match marking {
        Marking::Cp1661b => "",
        Marking::Cp1621b => "# Marking 1621, CP1621B.\n",
    }
}

fn head(code: &Code, reach: &Reach, vectors: &[Vector]) -> String {
    let names: Vec<&str> = vectors.iter().map(|own| own.draft.name.as_str()).collect();
    let mut lines = wrapped(&format!("{}  {}", code.key, meaning::sentence(code)));
    lines.extend(cost(code, reach, vectors));
    lines.push(String::new());
    lines.extend(wrapped(&format!(
        "{} vectors: {}.",
        names.len(),
        names.join(", ")
    )));
    lines.push(String::new());
    lines.extend(ORIGIN.lines().map(str::to_string));
    let base = |own: &Vector| own.draft.setting.marking == Marking::Cp1661b;
    if !vectors.iter().all(base) {
        lines.push(MARKED.to_string());
    }
    let lines = lines.iter().map(|line| format!("# {line}"));
    let lines = lines.map(|line| line.trim_end().to_string() + "\n");
    lines.collect()
}

/// What its execution costs, and its flags.
fn cost(code: &Code, reach: &Reach, vectors: &[Vector]) -> Option<String> {
    if code.format == Format::Refused {
        return None;
    }
    let cycles = vectors.first()?.left.report.microcycles;
    let plural = if cycles == 1 { "" } else { "s" };
    let list = |set: u8| match set {
        0 => "none".to_string(),
        _ => flags::names(set),
    };
    Some(format!(
        "{cycles} microcycle{plural}. Flags set: {}. Flags kept: {}.",
        list(reach.sets),
        list(!reach.sets)
    ))
}

/// Lines of at most 116 columns.
fn wrapped(text: &str) -> Vec<String> {
    let mut lines: Vec<String> = Vec::new();
    for word in text.split(' ') {
        match lines.last_mut() {
            Some(line) if line.len() + word.len() < 116 => {
                line.push(' ');
                line.push_str(word);
            }
            _ => lines.push(word.to_string()),
        }
    }
    lines
}
