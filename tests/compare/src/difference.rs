//! Where the engine departs from the interpreter.

use crate::call::{Call, Left};
use crate::deck::Sections;
use crate::describe;
use crate::engine::Engine;
use interpreter::State;
use std::io;

/// Lines of a difference that are told.
const LINES: usize = 60;

/// Tells the first difference that a call shows, by the least number of samples that shows one.
pub fn explain(engine: &Engine, call: &Call) -> io::Result<String> {
    let attempted = matches!(call.interpreted().report.answer, 0 | 5 | 6 | 8);
    let (call, mut lines) = if attempted {
        let least = least(engine, call)?;
        let lines = attempt(&least);
        (least, lines)
    } else {
        (call.clone(), Vec::new())
    };
    let [deck, requests, state] = [&call.deck, &call.requests, &call.state].map(Vec::len);
    lines.push(format!(
        "marking {}; bytes: deck {deck}, request buffer {requests}, state buffer {state}",
        call.marking
    ));
    match left(engine, &call)? {
        Some(got) => lines.extend(describe::differences(&call.interpreted(), &got)),
        None => lines.push("the driver died".to_string()),
    }
    lines.truncate(LINES);
    Ok(lines.join("\n  "))
}

/// What the engine leaves behind, or nothing when it dies.
fn left(engine: &Engine, call: &Call) -> io::Result<Option<Left>> {
    let answers = engine.run(std::slice::from_ref(call))?;
    Ok(answers.into_iter().next().map(|answer| answer.left))
}

/// The call cut to so many samples that one fewer shows no difference.
fn least(engine: &Engine, call: &Call) -> io::Result<Call> {
    let (mut alike, mut unlike) = (0, samples(call));
    let differs =
        |call: &Call| -> io::Result<bool> { Ok(left(engine, call)? != Some(call.interpreted())) };
    if differs(&cut(call, 0))? {
        return Ok(cut(call, 0));
    }
    while unlike - alike > 1 {
        let middle = (alike + unlike) / 2;
        if differs(&cut(call, middle))? {
            unlike = middle;
        } else {
            alike = middle;
        }
    }
    Ok(cut(call, unlike))
}

fn samples(call: &Call) -> usize {
    Sections::of(&call.deck).map_or(0, |sections| sections.samples.len() / 4)
}

/// The call with its first samples alone.
fn cut(call: &Call, samples: usize) -> Call {
    let mut cut = call.clone();
    if let Some(mut sections) = Sections::of(&call.deck) {
        sections.samples = &sections.samples[..4 * samples];
        cut.deck = sections.deck();
    }
    cut
}

/// What the call's last attempt starts from; nothing when there is none.
fn attempt(call: &Call) -> Vec<String> {
    let count = samples(call);
    let sections = match Sections::of(&call.deck) {
        Some(sections) if count > 0 => sections,
        _ => return Vec::new(),
    };
    let before = cut(call, count - 1).interpreted().state;
    let mut lines = vec![
        format!("attempt {count}, rows {}", sections.rows.len() / 16),
        format!("before: {}", describe::state(&before)),
    ];
    if let Ok(sample) = sections.samples[4 * count - 4..].try_into() {
        lines.push(format!("sample: {}", describe::sample(sample)));
    }
    let word = word(&sections, &before);
    lines.extend(word.map(|word| format!("word: {word:06X} {}", describe::instruction(word))));
    lines
}

/// The word that a state takes, its modification ORed in.
pub fn word(sections: &Sections<'_>, state: &[u8]) -> Option<u32> {
    let state = State::from_bytes(state.try_into().ok()?)?;
    let stored = sections.word(state.lc)?;
    Some(stored | u32::from(state.modification.unwrap_or(0)))
}
