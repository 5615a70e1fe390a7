//! Decks that the bench host shows in one process.

use super::check::{Asked, LAST};
use super::text;
use super::Judge;
use crate::subject::Subject;
use compare::tally::Tally;
use interpreter::decks::Random;
use interpreter::{Marking, DECK_LIMIT};
use std::process::Command;
use std::{fs, io};

/// How many groups there are, besides one with an unknown marking.
pub const GROUPS: u64 = 40;
/// Decks in a group.
const EACH: u64 = 50;
/// Decks of each that have to tell the slips.
const TELLING: usize = 5;

/// No chip's marking.
const UNKNOWN: u32 = 24;

/// The decks of one process, and what is asked of it.
pub struct Group {
    marking: u32,
    from: Option<usize>,
    to: Option<usize>,
    files: Vec<String>,
    decks: Vec<Vec<u8>>,
}

impl Group {
    /// The group of this number: whole traces and windows, under both markings. Its decks are written to
    /// files.
    pub fn new(seed: u32, number: u64) -> io::Result<Self> {
        let first = (u64::from(seed) << 32 | 1 << 31) + number * EACH;
        let random = &mut Random::new(first);
        let subjects = (first..first + EACH).map(Subject::new);
        let decks = subjects.map(|subject| subject.call().deck);
        // The bench host complains of longer ones, and its status is then another.
        let decks: Vec<Vec<u8>> = decks.filter(|deck| deck.len() <= DECK_LIMIT).collect();
        let files = (0..decks.len()).map(|at| format!("target/cuts/{number}-{at}.deck"));
        let files: Vec<String> = files.collect();
        for (file, deck) in files.iter().zip(&decks) {
            fs::write(file, deck)?;
        }
        let limit = random.pick(&[20, 60, 300, 2000]);
        let [before, more] = [(); 2].map(|_| random.below(limit) as usize);
        let window = number / 2 % 5;
        let marking = [Marking::Cp1661b, Marking::Cp1621b][number as usize % 2];
        Ok(Self {
            marking: match number {
                GROUPS => UNKNOWN,
                _ => marking.number(),
            },
            from: (window > 2).then_some(1 + before),
            to: (window > 1 && window < 4).then_some(1 + before + more),
            files,
            decks,
        })
    }

    /// What the bench host shows of these decks.
    fn shown(&self, bench: &[String], options: &[String]) -> io::Result<String> {
        let output = Command::new(&bench[0])
            .args(&bench[1..])
            .args(options)
            .args(["--marking", &self.marking.to_string()])
            .args(&self.files)
            .output()?;
        let told = String::from_utf8_lossy(&output.stderr);
        match String::from_utf8(output.stdout) {
            Ok(text) if output.status.success() && told.is_empty() => Ok(text),
            _ => {
                let why = format!("bench {options:?}: {}, {told}", output.status);
                Err(io::Error::new(io::ErrorKind::Other, why))
            }
        }
    }

    /// Checks the traces of these decks.
    pub fn test(&self, bench: &[String], judge: &mut Judge, tally: &mut Tally) -> io::Result<()> {
        let mut options = vec!["--trace".to_string()];
        for (name, number) in [("--from", self.from), ("--to", self.to)] {
            options.extend(number.map(|_| name.to_string()));
            options.extend(number.map(|number| number.to_string()));
        }
        let [traced, plain] = [self.shown(bench, &options)?, self.shown(bench, &[])?];
        let [traced, plain] = [text::decks(&traced), text::decks(&plain)];
        let counts = [self.files.len(), traced.len(), plain.len()];
        let uneven = counts[1..] != [counts[0]; 2];
        tally.check(uneven.then(|| format!("decks, and texts of them: {counts:?}")));
        for (at, file) in self.files.iter().enumerate() {
            let asked = Asked {
                name: file,
                deck: &self.decks[at],
                marking: self.marking,
                from: self.from.unwrap_or(1),
                to: self.to.unwrap_or(LAST),
            };
            let text = |texts: &[&str]| texts.get(at).copied().unwrap_or("").to_string();
            let [traced, plain] = [text(&traced), text(&plain)];
            judge.check(&asked, [&traced, &plain], tally);
            if at < TELLING {
                judge.tell(&asked, [&traced, &plain], tally);
            }
        }
        Ok(())
    }
}
