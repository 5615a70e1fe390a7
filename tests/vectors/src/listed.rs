//! The line of each word in a listing, from the compiled lister.

use crate::readable::runs;
use compare::deck::ELSEWHERE;
use compare::driver::{long_number, number, Asked, Driver};
use std::collections::BTreeMap;
use std::io::{self, Read, Write};

/// What stands before the word that is asked for.
const NOP: u32 = 0xFF00;

/// No line is longer.
const LINE_MOST: usize = 40;

/// The number by which the driver knows the lister, and the lister's answer for an unlisted word.
const LIST: u32 = 1;
const UNLISTED: u32 = 6;

/// A word at its address.
#[derive(Clone, Copy, PartialEq, Eq, PartialOrd, Ord)]
struct Place {
    at: usize,
    word: u32,
}

/// The line of each word, or none where the lister says that it is unlisted.
pub struct Lines(BTreeMap<Place, Option<String>>);

impl Lines {
    /// Those of the words in these lists. Of the words that must not be executed, which are many,
    /// the first in a row is asked for.
    pub fn of<'a>(lists: impl Iterator<Item = &'a [u32]>, lister: &Driver) -> Result<Self, String> {
        let mut places: Vec<Place> = lists.flat_map(places).collect();
        places.sort();
        places.dedup();
        let answers = lister.run(&places).map_err(|error| error.to_string())?;
        if answers.len() != places.len() {
            return Err("the lister left words without an answer".to_string());
        }
        let lines = places.into_iter().zip(answers);
        let lines = lines.map(|(place, line)| Ok((place, line?)));
        lines.collect::<Result<_, String>>().map(Self)
    }

    /// The line of a word, if it is listed.
    pub fn line(&self, at: usize, word: u32) -> Option<&str> {
        self.0.get(&Place { at, word })?.as_deref()
    }
}

fn places(words: &[u32]) -> Vec<Place> {
    let mut places = Vec::new();
    let mut at = 0;
    for run in runs(words) {
        let asked = if run[0] == ELSEWHERE { 1 } else { run.len() };
        places.extend((at..at + asked).map(|at| Place { at, word: run[0] }));
        at += run.len();
    }
    places
}

impl Asked for Place {
    type Answer = Result<Option<String>, String>;

    /// As many NOPs as there are addresses before it, then the word, and room for their lines.
    fn send(&self, input: &mut impl Write) -> io::Result<()> {
        let count = self.at as u32 + 1;
        for number in [LIST, 4 * count, LINE_MOST as u32 * count] {
            input.write_all(&number.to_le_bytes())?;
        }
        for _ in 0..self.at {
            input.write_all(&NOP.to_le_bytes())?;
        }
        input.write_all(&self.word.to_le_bytes())?;
        input.write_all(&vec![0; LINE_MOST * (self.at + 1)])
    }

    fn receive(&self, output: &mut impl Read) -> io::Result<Self::Answer> {
        let answer = number(output)?;
        let _at = number(output)?;
        let length = number(output)?;
        let damage = number(output)?;
        long_number(output)?;
        let mut text = vec![0; LINE_MOST * (self.at + 1)];
        output.read_exact(&mut text)?;
        text.truncate(length as usize);
        let text = String::from_utf8_lossy(&text);
        Ok(match (answer, damage, text.lines().last()) {
            (0, 0, Some(line)) => Ok(Some(line.to_string())),
            (UNLISTED, 0, _) => Ok(None),
            _ => Err(format!(
                "{:06X} at {:03X}: the lister answers {answer}, damage {damage}",
                self.word, self.at
            )),
        })
    }
}
