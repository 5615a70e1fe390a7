//! The bytes of the texts through the engine and the interpreter.

use crate::bytes::{self, Bytes};
use compare::call::{Call, Left};
use compare::deck::Sections;
use compare::describe::wrong;
use compare::engine::Engine;
use compare::tally::Tally;
use interpreter::{Report, STATE_BYTES};
use std::fs;
use std::path::{Path, PathBuf};

/// A vector as a text has it.
struct Replayed {
    /// The file's name and the vector's.
    title: String,
    call: Call,
    expected: Left,
}

/// Replays every text of a directory.
pub fn all(directory: &Path, engine: &Engine) -> Result<Tally, String> {
    let mut vectors = Vec::new();
    for path in texts(directory)? {
        vectors.extend(of_file(&path)?);
    }
    if vectors.is_empty() {
        return Err(format!("{}: no vectors", directory.display()));
    }
    let calls: Vec<Call> = vectors.iter().map(|own| own.call.clone()).collect();
    let mut tally = Tally::default();
    for (side, lefts) in engine.both(&calls).map_err(|error| error.to_string())? {
        for (at, own) in vectors.iter().enumerate() {
            let wrong = wrong(&own.expected, lefts.get(at));
            tally.check(wrong.map(|wrong| format!("{}, {side}: {wrong}", own.title)));
        }
    }
    Ok(tally)
}

/// The texts of a directory, in order.
fn texts(directory: &Path) -> Result<Vec<PathBuf>, String> {
    let tell = |error: std::io::Error| format!("{}: {error}", directory.display());
    let mut paths = Vec::new();
    for entry in fs::read_dir(directory).map_err(tell)? {
        let path = entry.map_err(tell)?.path();
        if path.extension().map_or(false, |own| own == "txt") {
            paths.push(path);
        }
    }
    paths.sort();
    Ok(paths)
}

fn of_file(path: &Path) -> Result<Vec<Replayed>, String> {
    let tell = |error: String| format!("{}: {error}", path.display());
    let text = fs::read_to_string(path).map_err(|error| tell(error.to_string()))?;
    let stem = path.file_stem().unwrap_or_default().to_string_lossy();
    let vectors = bytes::read(&text).map_err(tell)?;
    let replayed = vectors.into_iter().map(|(name, bytes)| {
        let title = format!("{stem} {name}");
        replayed(title.clone(), bytes).ok_or_else(|| tell(format!("{title}: bytes are missing")))
    });
    replayed.collect()
}

/// The call of a vector's bytes, and what must be after it: places that no attempt wrote stay.
fn replayed(title: String, bytes: Bytes) -> Option<Replayed> {
    let number = |at: usize| -> Option<u32> {
        let bytes = bytes.report.get(4 * at..4 * at + 4)?;
        Some(u32::from_le_bytes(bytes.try_into().ok()?))
    };
    let report = Report {
        answer: number(0)?,
        attempts: number(1)?,
        microcycles: number(2)?,
    };
    let samples = Sections::of(&bytes.deck)?.samples.len();
    let call = Call::patterned(bytes.deck, samples + 4, STATE_BYTES);
    let call = match bytes.marking.is_empty() {
        true => call,
        false => call.marked(u32::from_le_bytes(bytes.marking.try_into().ok()?)),
    };
    let mut requests = call.requests.clone();
    requests
        .get_mut(..bytes.requests.len())?
        .copy_from_slice(&bytes.requests);
    let whole = bytes.report.len() == 12 && bytes.requests.len() == 4 * report.attempts as usize;
    let expected = Left {
        report,
        damage: 0,
        requests,
        state: bytes.state,
    };
    whole.then_some(Replayed {
        title,
        call,
        expected,
    })
}
