//! Makes the vectors and writes their files.

use crate::code::{self, Code};
use crate::draft::Draft;
use crate::listed::Lines;
use crate::vector::Vector;
use crate::{check, choose, file, further};
use compare::call::{Call, Left};
use compare::describe::wrong;
use compare::driver::Driver;
use compare::engine::Engine;
use compare::tally::Tally;
use std::fs;
use std::path::Path;

/// Writes a file for each code, when every check passes.
pub fn all(directory: &Path, engine: &Engine, lister: &Driver) -> Result<Tally, String> {
    let codes = code::all();
    let drafts: Vec<Vec<Draft>> = codes.iter().map(further::drafts).collect();
    let words = drafts
        .iter()
        .flatten()
        .map(|draft| draft.setting.words.as_slice());
    let lines = Lines::of(words, lister)?;
    let calls = drafts.iter().flatten().map(|draft| draft.setting.call());
    let calls: Vec<Call> = calls.collect();
    let answers = engine.run(&calls).map_err(|error| error.to_string())?;
    if answers.len() != calls.len() {
        return Err("the engine left vectors without an answer".to_string());
    }
    println!("{} codes, {} vectors", codes.len(), calls.len());
    let mut results = calls.iter().zip(answers);
    let mut tally = Tally::default();
    let mut texts = Vec::new();
    for (code, drafts) in codes.iter().zip(drafts) {
        let vectors: Vec<Vector> = drafts
            .into_iter()
            .zip(results.by_ref())
            .map(|(draft, (call, answer))| agreed(&mut tally, code, draft, call, answer.left))
            .collect();
        texts.push((code, checked(&mut tally, code, &vectors, &lines)));
    }
    if tally.failed == 0 {
        put(directory, &texts)?;
    }
    Ok(tally)
}

/// The vector of a draft; engine and interpreter must leave the same behind in every byte.
fn agreed(tally: &mut Tally, code: &Code, draft: Draft, call: &Call, left: Left) -> Vector {
    let wrong = wrong(&call.interpreted(), Some(&left));
    let title = format!("{} {}", code.key, draft.name);
    tally.check(wrong.map(|wrong| format!("{title}: interpreter against engine: {wrong}")));
    Vector { draft, left }
}

/// The text of a code's vectors, after they are checked.
fn checked(tally: &mut Tally, code: &Code, vectors: &[Vector], lines: &Lines) -> String {
    let reach = choose::reached(code);
    for own in vectors {
        let wrong = check::vector(code, own);
        tally.check(wrong.map(|wrong| format!("{} {}: {wrong}", code.key, own.draft.name)));
    }
    for wrong in check::together(code, vectors, &reach) {
        tally.check(wrong.map(|wrong| format!("{}: {wrong}", code.key)));
    }
    file::text(code, &reach, vectors, lines)
}

fn put(directory: &Path, texts: &[(&Code, String)]) -> Result<(), String> {
    for (code, text) in texts {
        let path = directory.join(format!("{}.txt", code.key));
        fs::write(&path, text).map_err(|error| format!("{}: {error}", path.display()))?;
    }
    Ok(())
}
