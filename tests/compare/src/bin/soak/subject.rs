//! A deck that is run over and over, and what each run has to leave behind.

use compare::call::{Call, Left};
use compare::deck::{largest, Sections};
use compare::describe::differences;
use compare::driver::Asked;
use interpreter::STATE_BYTES;
use std::fs::{self, File};
use std::io::{self, Read, Write};

/// Bytes of a deck.
const MOST: u64 = 65_536;
/// The bench's decks: seeds, and rows of each.
const SEEDS: u64 = 8;
const ROWS: [usize; 3] = [0, 16, 128];
/// What is told of one run's differences.
const TOLD: usize = 4;

/// A deck with the results that its runs are held to.
pub struct Subject {
    /// Its file, or which of the bench's it is.
    pub name: String,
    /// The call that each run makes.
    pub call: Call,
    /// What the interpreter leaves behind.
    pub interpreted: Left,
    /// What the engine's first run left behind.
    pub first: Left,
}

impl Subject {
    /// The first result is the interpreter's until there is one.
    fn new(name: String, deck: Vec<u8>) -> Result<Self, String> {
        let samples = match Sections::of(&deck) {
            Some(sections) => sections.samples.len(),
            None => 0,
        };
        // A place more than the samples have: it stays as found.
        let call = Call::patterned(deck, samples + 4, STATE_BYTES);
        let interpreted = call.interpreted();
        if interpreted.report.answer == 9 {
            return Err(format!("{name}: not a deck, answer 9"));
        }
        Ok(Self {
            first: interpreted.clone(),
            name,
            call,
            interpreted,
        })
    }

    /// The deck of a file.
    pub fn of_file(name: &String) -> Result<Self, String> {
        let mut deck = Vec::new();
        let read = File::open(name).and_then(|file| file.take(MOST + 1).read_to_end(&mut deck));
        match read {
            Err(error) => Err(format!("{name}: {error}")),
            Ok(_) if deck.len() as u64 > MOST => Err(format!("{name}: over {MOST} bytes")),
            Ok(_) => without_memory(name).and_then(|()| Self::new(name.clone(), deck)),
        }
    }

    /// The bench's decks.
    pub fn of_bench() -> Result<Vec<Self>, String> {
        let each = ROWS
            .iter()
            .flat_map(|&rows| (0..SEEDS).map(move |seed| (seed, rows)));
        each.map(|(seed, rows)| Self::new(format!("bench-{seed}-rows-{rows}"), largest(seed, rows)))
            .collect()
    }

    /// In what a run departs from the interpreter and from the first run.
    pub fn wrong(&self, left: &Left) -> Option<String> {
        let results = [
            ("the interpreter", &self.interpreted),
            ("run 1", &self.first),
        ];
        let unlike = results.iter().filter(|(_, result)| *result != left);
        let unlike: Vec<String> = unlike
            .map(|(whose, result)| {
                format!("unlike {whose}: {}", shortened(differences(result, left)))
            })
            .collect();
        match unlike.is_empty() {
            true => None,
            false => Some(unlike.join("; ")),
        }
    }
}

/// A deck with a memory beside it, under the name where the bench host looks for one, is refused:
/// its runs here would be others than there.
fn without_memory(name: &str) -> Result<(), String> {
    let memory = format!("{}.memory", name.strip_suffix(".deck").unwrap_or(name));
    match fs::symlink_metadata(&memory) {
        Ok(_) => Err(format!(
            "{name}: not soaked, for {memory} is beside it: soak runs are without a memory"
        )),
        Err(_) => Ok(()),
    }
}

fn shortened(mut lines: Vec<String>) -> String {
    let more = lines.len().saturating_sub(TOLD);
    lines.truncate(TOLD);
    if more > 0 {
        lines.push(format!("{more} more"));
    }
    lines.join(", ")
}

/// One run. It is judged as soon as its answer comes, so that a long batch takes no memory.
#[derive(Clone, Copy)]
pub struct Run<'a>(pub &'a Subject);

impl Asked for Run<'_> {
    /// What is wrong with it.
    type Answer = Option<String>;

    fn send(&self, input: &mut impl Write) -> io::Result<()> {
        self.0.call.send(input)
    }

    fn receive(&self, output: &mut impl Read) -> io::Result<Option<String>> {
        let answer = self.0.call.receive(output)?;
        Ok(self.0.wrong(&answer.left))
    }
}
