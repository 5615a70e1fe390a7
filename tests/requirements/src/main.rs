//! Holds docs/REQUIREMENTS.md to what the interpreter does: `requirements PAGE VECTORS`.
//!
//! The page is written from the engine's proved table; here its cells are held to attempts of the
//! independent interpreter, to the vectors' files, and keys and formats to lists of the tests' own.

#![forbid(unsafe_code)]

mod observed;
mod page;

use compare::listing::any_key;
use compare::tally::{ended, Tally};
use observed::Observed;
use page::Requirement;
use std::fs;
use std::path::Path;
use std::process::ExitCode;

fn main() -> ExitCode {
    let arguments: Vec<String> = std::env::args().skip(1).collect();
    let [page, vectors] = match <[String; 2]>::try_from(arguments) {
        Ok(both) => both,
        Err(_) => {
            eprintln!("usage: requirements PAGE VECTORS");
            return ExitCode::FAILURE;
        }
    };
    ended("requirements", held(&page, Path::new(&vectors)))
}

/// How many cells of the page are so, and how many are not.
fn held(page: &str, vectors: &Path) -> Result<Tally, String> {
    let text = fs::read_to_string(page).map_err(|error| format!("{page}: {error}"))?;
    let requirements = page::read(&text)?;
    let mut tally = Tally::default();
    let mut check = |what: &str, holds: bool| tally.check((!holds).then(|| what.to_string()));
    let tops = requirements.iter().flat_map(|it| it.codes.clone());
    check("not every top byte once, in order", tops.eq(0..=255));
    let listed = requirements.iter().filter(|it| it.listed()).count();
    check(
        "not 150 listed and 17 unlisted",
        (listed, requirements.len()) == (150, 167),
    );
    for requirement in &requirements {
        for (cell, holds) in cells(requirement, vectors) {
            check(&format!("{}: {cell}", requirement.key), holds);
        }
    }
    Ok(tally)
}

/// Each cell of a requirement, and whether it is so.
fn cells(it: &Requirement, vectors: &Path) -> Vec<(&'static str, bool)> {
    let seen = Observed::of(it.codes.clone());
    let file = fs::read_to_string(vectors.join(format!("{}.txt", it.key))).unwrap_or_default();
    let count = file
        .lines()
        .filter(|line| line.starts_with("vector "))
        .count();
    let format = it.listed().then(|| page::format(*it.codes.start()));
    let mut cells = vec![
        ("key", it.key == any_key(*it.codes.start())),
        ("format", it.format.as_deref() == format),
        (
            "refusals",
            (0..=255).all(|low| seen.refusals[low as usize] == it.refusal(low)),
        ),
        ("vectors", it.vectors == count && count >= 3),
        ("outputs", seen.outputs),
        ("the same with both markings, but SYNC and IACK", seen.alike),
        (
            "facts where it completes",
            it.facts.is_some() != seen.microcycles.is_empty(),
        ),
    ];
    if let Some(facts) = &it.facts {
        cells.extend([
            ("microcycles", seen.microcycles == [facts.microcycles]),
            ("flags", seen.flags == facts.flags),
            // The sets that cover every change are those with all that the page names in them.
            (
                "registers",
                (0..8).all(|set| seen.registers[set] == (set & facts.registers == facts.registers)),
            ),
            ("CP1621B", facts.bus(&seen.kept)),
            (
                "waits",
                seen.waits == facts.waits && seen.completes == facts.waits.map(|waits| !waits),
            ),
        ]);
    }
    cells
}
