//! What must come of a vector, for a reader.

use crate::vector::Vector;
use compare::describe::KINDS;
use compare::fields::{other_fields, register_fields};
use compare::flags;
use interpreter::State;

/// 01's words for the answers that a vector can have.
const ANSWERS: [&str; 9] = [
    "all samples used",
    "",
    "",
    "",
    "",
    "LC has no word",
    "code unlisted, or AC",
    "",
    "option not listed",
];

/// The answer, the counts, the requests, and what changed.
pub fn text(vector: &Vector) -> String {
    let report = vector.left.report;
    let at = match report.answer {
        0 => String::new(),
        _ => format!(", at attempt {}", report.attempts + 1),
    };
    let answer = ANSWERS[report.answer as usize % ANSWERS.len()];
    let mut lines = vec![
        "expected".to_string(),
        labelled("answer", &format!("{}: {answer}{at}", report.answer)),
        labelled("attempts", &report.attempts.to_string()),
        labelled("microcycles", &report.microcycles.to_string()),
    ];
    for (at, request) in (1..).zip(vector.requests()) {
        lines.push(labelled(&format!("request {at}"), &described(request)));
    }
    if let Some(after) = vector.after() {
        lines.extend(changes(&vector.draft.setting.state, &after));
    }
    lines.join("\n") + "\n"
}

fn labelled(label: &str, content: &str) -> String {
    format!("    {label:<14}{content}")
}

/// A request by its kind, and by its value where the kind has one.
fn described(request: u32) -> String {
    let (kind, value) = (request >> 16, request & 0xFFFF);
    let name = KINDS.get(kind as usize).copied().unwrap_or("unknown");
    let name = name.replace('-', " ");
    match kind {
        1..=9 => format!("{name} {value:04X}"),
        // These two are lines, and 01 has lines in capitals.
        11 => name.to_uppercase(),
        12 => name.replace("compute", "COMPUTE"),
        _ => name,
    }
}

/// Every field that changed, and the flags.
fn changes(before: &State, after: &State) -> Vec<String> {
    let fields = |state: &State| {
        let bytes = state.to_bytes();
        [register_fields(&bytes), other_fields(&bytes)].concat()
    };
    let both = fields(before).into_iter().zip(fields(after));
    let changed = both.filter(|((_, before), (_, after))| before != after);
    let mut lines: Vec<String> = changed
        .map(|((name, before), (_, after))| labelled(&name, &format!("{before} -> {after}")))
        .collect();
    let unchanged = lines.is_empty() && before.flags == after.flags;
    lines.extend(flag_table(before.flags, after.flags));
    let rest = match unchanged {
        true => "as before, all of it",
        false => "as before but for the above",
    };
    lines.push(labelled("state", rest));
    lines
}

/// The flags before and after, in columns.
fn flag_table(before: u8, after: u8) -> [String; 3] {
    let columns = |byte: u8| -> String {
        let column = |bit: u8| {
            let width = flags::name(bit).len();
            format!("{:>width$}", u8::from(byte & bit != 0))
        };
        let columns: Vec<String> = flags::each(flags::ALL).map(column).collect();
        columns.join(" ")
    };
    [
        labelled("flags", &flags::names(flags::ALL)),
        labelled("  before", &columns(before)),
        labelled("  after", &columns(after)),
    ]
}
