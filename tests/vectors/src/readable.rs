//! A setting in the language of `examples/make`.

use crate::code::{Code, Format};
use crate::listed::Lines;
use crate::operands::other;
use crate::row::{Asked, Part, Row, LRA, LTA, LTSR};
use crate::setting::{Sample, Setting};
use compare::fields::{other_fields, register_fields, Field, NONE};
use compare::flags;
use compare::lines;
use interpreter::{place, State};

/// The sections, one line to an item.
pub fn text(code: &Code, setting: &Setting, listed: &Lines) -> String {
    let mut lines = vec!["words".to_string()];
    lines.extend(words(&setting.words, listed));
    if !setting.rows.is_empty() {
        lines.push("rows".to_string());
        lines.extend(setting.rows.iter().map(row));
    }
    lines.push("state".to_string());
    lines.extend(state(code, setting));
    lines.push("samples".to_string());
    lines.extend(setting.samples.iter().map(sample));
    lines.join("\n") + "\n"
}

/// A line and its comment.
fn remarked(content: &str, remark: &str) -> String {
    format!("    {content:<20}# {remark}")
}

/// The lister's line for each word, or the word itself where there is none.
fn words(words: &[u32], lines: &Lines) -> Vec<String> {
    let mut text = Vec::new();
    let mut at = 0;
    for run in runs(words) {
        let (word, count) = (run[0], run.len());
        match (lines.line(at, word), count) {
            (Some(_), _) => {
                let own = (at..at + count).filter_map(|at| lines.line(at, word));
                text.extend(own.map(|line| format!("    {line}")));
            }
            (None, 1) => text.push(remarked(
                &format!("{word:04X}"),
                &format!("{at:03X}  unlisted"),
            )),
            _ => text.push(remarked(
                &format!("{word:04X} x {count}"),
                "unlisted: must not be executed",
            )),
        }
        at += count;
    }
    text
}

/// Equal items that follow each other.
pub fn runs<T: PartialEq>(items: &[T]) -> Vec<&[T]> {
    let mut runs = Vec::new();
    let mut rest = items;
    while let Some(first) = rest.first() {
        let end = rest.iter().position(|item| item != first);
        let (run, after) = rest.split_at(end.unwrap_or(rest.len()));
        runs.push(run);
        rest = after;
    }
    runs
}

/// What a row asks for, then each line that it raises before what it gives with it.
fn row(row: &Row) -> String {
    let mut parts: Vec<String> = Part::ALL
        .iter()
        .flat_map(|&part| asked(part, row.asked(part)))
        .collect();
    let raises = |line: u8| row.lines & line != 0;
    parts.extend(raises(LTA).then(|| "LTA".to_string()));
    let address = raises(LTA) || row.address != 0;
    parts.extend(address.then(|| format!("address={:03X}", row.address)));
    parts.extend(raises(LRA).then(|| "LRA".to_string()));
    parts.extend(raises(LTSR).then(|| "LTSR".to_string()));
    let new_tsr = raises(LTSR) || row.new_tsr != 0;
    parts.extend(new_tsr.then(|| format!("newTSR={}", row.new_tsr)));
    format!("    {}", parts.join(" "))
}

/// What a row asks of a part, after / the mask where not all bits count; interrupts one by one.
fn asked(part: Part, asked: Asked) -> Vec<String> {
    let Asked { mask, value } = asked;
    let number = |value: u16| match part {
        Part::Lc => format!("{value:03X}"),
        Part::Tr => format!("{value:02X}"),
        _ => format!("{value:X}"),
    };
    let name = match part {
        Part::Lc => "LC",
        Part::Rni => "RNI",
        Part::Tr => "TR",
        Part::Tsr => "TSR",
        Part::Interrupts => {
            let lines = (0..7).filter(|at| mask >> at & 1 == 1);
            return lines
                .map(|at| format!("I{at}={}", value >> at & 1))
                .collect();
        }
    };
    match mask {
        0 => Vec::new(),
        _ if mask == part.whole() => vec![format!("{name}={}", number(value))],
        _ => vec![format!("{name}={}/{}", number(value), number(mask))],
    }
}

/// What the word works on first, then the rest that is not 0.
fn state(code: &Code, setting: &Setting) -> Vec<String> {
    let state = &setting.state;
    let registers = register_fields(&state.to_bytes());
    let mut rest: Vec<usize> = (0..registers.len()).collect();
    let mut lines = Vec::new();
    for (label, places) in designated(code, setting) {
        let own: Vec<&Field> = places
            .iter()
            .filter(|&at| rest.contains(at))
            .map(|&at| &registers[at])
            .collect();
        if !own.is_empty() {
            lines.push(remarked(&pairs(own), &label));
        }
        rest.retain(|at| !places.contains(at));
    }
    // G0-GB come before R2-RF.
    let general = rest.iter().filter(|&&at| at < 12).map(|&at| &registers[at]);
    lines.push(format!("    {}", pairs(general.collect())));
    let others = rest
        .iter()
        .filter(|&&at| at >= 12)
        .map(|&at| &registers[at]);
    lines.push(format!("    {}", pairs(others.collect())));
    lines.extend(remaining(state));
    lines
}

fn pairs(fields: Vec<&Field>) -> String {
    let pairs = fields.iter().map(|(name, value)| format!("{name}={value}"));
    pairs.collect::<Vec<String>>().join(" ")
}

/// G, LC and the others that are not 0, then the flags that are 1.
fn remaining(state: &State) -> Vec<String> {
    let zero = |value: &str| value.chars().all(|digit| digit == '0');
    let mut fields = other_fields(&state.to_bytes());
    fields.retain(|(name, value)| match name.as_str() {
        "modification" => value != NONE,
        _ => !zero(value),
    });
    let mut lines = Vec::new();
    if !fields.is_empty() {
        lines.push(format!("    {}", pairs(fields.iter().collect())));
    }
    if state.flags != 0 {
        lines.push(format!("    flags = {}", flags::names(state.flags)));
    }
    lines
}

/// The registers that the word names, as far as its code looks at them.
fn designated(code: &Code, setting: &Setting) -> Vec<(String, Vec<usize>)> {
    let (word, g) = (setting.word(), setting.state.g);
    let [own_a, own_b] = [word as u8, (word >> 4) as u8];
    let [a, b] = [own_a, own_b].map(|own| place(own, g));
    let [high_a, high_b] = [own_a, own_b].map(|own| place(other(own), g));
    let named = |label: &str, places: &[usize]| (label.to_string(), places.to_vec());
    let pair_a = || named("low and high byte of Ra's pair", &[a, high_a]);
    match code.format {
        Format::Control if !matches!(code.mnemonic, "CCF" | "LGL") => Vec::new(),
        Format::Literal | Format::Single | Format::InputByte | Format::Control => {
            vec![named("Ra", &[a])]
        }
        Format::ByteFromB | Format::Byte if a == b => vec![named("Ra, Rb", &[a])],
        Format::ByteFromB | Format::Byte => vec![named("Ra", &[a]), named("Rb", &[b])],
        Format::WordFromB | Format::Word if a == high_b => vec![named(
            "low and high byte of Ra's pair, high and low byte of Rb's",
            &[a, high_a],
        )],
        Format::WordFromB | Format::Word => vec![
            pair_a(),
            named("low and high byte of Rb's pair", &[b, high_b]),
        ],
        Format::InputWord => vec![pair_a()],
        Format::Address if a == b => vec![named("Ra, Rb", &[a])],
        Format::Address => vec![named("Ra, Rb", &[a, b])],
        _ => Vec::new(),
    }
}

/// The lines that are high, and the data.
fn sample(sample: &Sample) -> String {
    let high = lines::names(sample.lines).into_iter();
    let mut parts: Vec<String> = high.map(str::to_string).collect();
    let interrupts = (0..4).filter(|at| sample.interrupts >> at & 1 == 1);
    parts.extend(interrupts.map(|at| format!("I{at}")));
    if sample.data != 0 {
        parts.push(format!("data={:04X}", sample.data));
    }
    match parts.is_empty() {
        true => "    none".to_string(),
        false => format!("    {}", parts.join(" ")),
    }
}
