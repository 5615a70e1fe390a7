//! A deck's trace against the interpreter, after every attempt.

use super::expected;
use super::fields::{Change, Fields};
use super::text::{self, Attempt, Came, Head, Line, Shown};
use crate::board::Board;
use compare::call::Call;
use compare::deck::Sections;
use compare::listing;
use interpreter::{Outcome, STATE_BYTES};
use std::fmt;

/// A deck whose trace is asked for: the attempts from one to another, counted from 1.
pub struct Asked<'a> {
    pub name: &'a str,
    pub deck: &'a [u8],
    pub marking: u32,
    pub from: usize,
    pub to: usize,
}

/// The last attempt that any deck has.
pub const LAST: usize = 65_535;

impl fmt::Display for Asked<'_> {
    fn fmt(&self, f: &mut fmt::Formatter<'_>) -> fmt::Result {
        let (name, marking, from, to) = (self.name, self.marking, self.from, self.to);
        write!(f, "{name}, marking {marking}, from {from} to {to}")
    }
}

/// What a trace that is right has shown.
pub enum Showed {
    /// The attempts' outcomes, refusals by number; samples that were not used.
    Attempts(Vec<String>),
    /// No attempt: the window has none.
    NoAttempt,
    /// No attempt: the deck is refused as a whole.
    NoRun,
}

impl Asked<'_> {
    /// What the text with the trace shows, next to the one without; or what is wrong with it.
    pub fn check(&self, traced: &Shown<'_>, plain: &Shown<'_>) -> Result<Showed, String> {
        let sections = Sections::of(self.deck);
        let samples = sections.map_or(0, |own| own.samples.len() / 4);
        let head = self.head(samples);
        let shown = traced.blocks.first().and_then(|block| Head::of(block));
        if traced.name != self.name || shown.as_ref() != Some(&head) {
            return Err(format!(
                "expected {head:?}, shown {} {shown:?}",
                traced.name
            ));
        }
        let sections = match sections.filter(|_| matches!(head.answer, 0 | 5..=8)) {
            Some(sections) => sections,
            None if traced.blocks == plain.blocks => return Ok(Showed::NoRun),
            None => return Err("a deck that is not run is shown otherwise".to_string()),
        };
        match (traced.blocks.as_slice(), plain.blocks.as_slice()) {
            ([own, trace, state], [first, .., last]) if own == first && state == last => {
                match self.from > samples {
                    true => self.no_attempt(trace, samples),
                    false => {
                        let board = Board::of(&sections, self.marking);
                        let board = board.ok_or("the deck is out of range")?;
                        let words = text::words(own).ok_or("the words are not understood")?;
                        self.attempts(&sections, Run::new(board, words, head), trace)
                    }
                }
            }
            _ => Err("more is shown otherwise than the attempts".to_string()),
        }
    }

    /// What the head has to say, by one run of the interpreter.
    fn head(&self, samples: usize) -> Head {
        let call = Call::patterned(self.deck.to_vec(), 4 * samples, STATE_BYTES);
        let report = call.marked(self.marking).interpreted().report;
        Head {
            answer: report.answer,
            refused: matches!(report.answer, 5..=8).then_some(report.attempts + 1),
            attempts: report.attempts,
            microcycles: report.microcycles,
        }
    }

    /// The window lies behind the deck's samples.
    fn no_attempt(&self, trace: &[&str], samples: usize) -> Result<Showed, String> {
        let from = self.from;
        let only = format!("  none of the attempts from {from} on: the deck has {samples} samples");
        match trace == [only.as_str()] {
            true => Ok(Showed::NoAttempt),
            false => Err(format!("expected {only}")),
        }
    }

    /// The attempts of the window, on a state that starts as it is before them.
    fn attempts(
        &self,
        sections: &Sections<'_>,
        mut run: Run,
        block: &[&str],
    ) -> Result<Showed, String> {
        let trace = text::trace(block)?;
        let samples = sections.samples.chunks_exact(4);
        let end = self.to.min(samples.len());
        let mut shown = trace.attempts.iter();
        for (number, sample) in (1..).zip(samples) {
            let traced = (self.from..=end).contains(&number);
            let wrong = |wrong| format!("attempt {number}: {wrong}");
            let (word, outcome) = run.attempt(sample).map_err(wrong)?;
            if traced {
                let line = expected::line(number, word, outcome);
                let attempt = shown.next().ok_or_else(|| wrong("missing".to_string()))?;
                run.hold(line, sample, attempt).map_err(wrong)?;
            } else {
                run.pass(outcome);
            }
            if run.refused.is_some() {
                break;
            }
        }
        if let Some(extra) = shown.next() {
            return Err(format!("no such attempt: {:?}", extra.line));
        }
        run.totals()?;
        let unused = run.unused(self.from, end);
        if trace.unused != unused {
            return Err(format!(
                "expected {unused:?} not used, traced {:?}",
                trace.unused
            ));
        }
        run.showed.extend(unused.map(|_| "not used".to_string()));
        Ok(Showed::Attempts(run.showed))
    }
}

/// A deck on the interpreter's board, and the state that the trace tells of.
struct Run {
    board: Board,
    kept: [u8; STATE_BYTES],
    fields: Fields,
    /// The lines of the words, and the numbers of one run.
    words: Vec<String>,
    head: Head,
    made: u32,
    microcycles: u32,
    refused: Option<u8>,
    showed: Vec<String>,
}

impl Run {
    fn new(board: Board, words: Vec<String>, head: Head) -> Self {
        Self {
            kept: board.state.to_bytes(),
            board,
            fields: Fields::new(),
            words,
            head,
            made: 0,
            microcycles: 0,
            refused: None,
            showed: Vec::new(),
        }
    }

    /// Makes the next attempt; gives its word's line and what came of it.
    fn attempt(&mut self, sample: &[u8]) -> Result<(String, Outcome), String> {
        let word = self.word()? + &self.modification();
        let outcome = self.board.attempt(sample).ok_or("no such sample")?;
        match outcome {
            Outcome::Done { .. } => self.made += 1,
            Outcome::Refused(answer) => self.refused = Some(answer),
        }
        Ok((word, outcome))
    }

    /// Lets an attempt pass that is not traced.
    fn pass(&mut self, outcome: Outcome) {
        if let Outcome::Done { microcycles, .. } = outcome {
            self.microcycles += microcycles;
        }
        self.kept = self.board.state.to_bytes();
    }

    /// Holds the trace of an attempt to its line, its sample and what it changed.
    fn hold(&mut self, line: Line, sample: &[u8], traced: &Attempt<'_>) -> Result<(), String> {
        if traced.line != line {
            return Err(format!("expected {line:?}, traced {:?}", traced.line));
        }
        let lines = expected::sample(sample);
        if traced.sample != lines {
            return Err(format!("expected sample {lines}, traced {}", traced.sample));
        }
        if let Came::Done(microcycles, ..) = traced.line.came {
            self.microcycles += microcycles;
        }
        self.showed.push(match self.refused {
            Some(answer) => format!("refused by {answer}"),
            None => line.outcome,
        });
        self.change(&traced.changes)
    }

    /// The first and the last sample of a window behind a refused attempt.
    fn unused(&self, from: usize, end: usize) -> Option<(usize, usize)> {
        let first = from.max(self.made as usize + 2);
        (self.refused.is_some() && first <= end).then_some((first, end))
    }

    /// The line of the word at LC, as the head has it. Its mnemonic is held to the manual's.
    fn word(&self) -> Result<String, String> {
        let (lc, word) = (self.board.state.lc, self.board.word());
        let word = match word {
            Some(word) => word,
            None => return Ok(format!("{lc:03X} no word")),
        };
        let text = self.words.get(usize::from(lc));
        let text = text.ok_or(format!("the head has no word {lc:03X}"))?;
        let own = match listing::mnemonic((word >> 8) as u8) {
            Some(mnemonic) => mnemonic.to_string(),
            None => format!("{word:04X}"),
        };
        match text.split(' ').nth(1) == Some(own.as_str()) {
            true => Ok(text.clone()),
            false => Err(format!("the head has {text} for {word:06X}")),
        }
    }

    /// What is ORed into that word, where a modification waits.
    fn modification(&self) -> String {
        let waiting = self.board.state.modification;
        waiting.map_or(String::new(), |bits| format!(" OR {bits:04X}"))
    }

    /// Makes the changes that the trace tells of, after which the state is the interpreter's.
    fn change(&mut self, changes: &[Change<'_>]) -> Result<(), String> {
        self.fields.apply(changes, &mut self.kept)?;
        let expected = self.board.state.to_bytes();
        match self.kept == expected {
            true => Ok(()),
            false => Err(self.fields.differences(&expected, &self.kept)),
        }
    }

    /// The numbers of one run are what the attempts come to.
    fn totals(&self) -> Result<(), String> {
        let sums = Head {
            answer: self.refused.map_or(0, u32::from),
            refused: self.refused.map(|_| self.made + 1),
            attempts: self.made,
            microcycles: self.microcycles,
        };
        match sums == self.head {
            true => Ok(()),
            false => Err(format!("the attempts come to {sums:?}")),
        }
    }
}
