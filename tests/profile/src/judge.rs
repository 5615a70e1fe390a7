//! Holds the compiled check to the interpreter's.

use crate::slips::{self, Slip};
use compare::driver::{number, Asked, Driver};
use compare::tally::Tally;
use interpreter::{profile, Profile};
use std::io::{self, Read, Write};

/// Bytes of the lists in one process of the driver.
const BATCH: usize = 4_000_000;
/// Bytes of a list that are told.
const TOLD: usize = 64;

/// The bytes of words.
struct List(Vec<u8>);

impl Asked for List {
    /// What the check says, and what it touched that it may not, by the driver's bits.
    type Answer = (Profile, u32);

    fn send(&self, input: &mut impl Write) -> io::Result<()> {
        input.write_all(&(self.0.len() as u32).to_le_bytes())?;
        input.write_all(&self.0)
    }

    fn receive(&self, output: &mut impl Read) -> io::Result<Self::Answer> {
        let told = Profile {
            answer: number(output)?,
            address: number(output)?,
            rule: number(output)?,
        };
        Ok((told, number(output)?))
    }
}

/// Takes lists and calls the compiled check in batches.
pub struct Judge<'a> {
    driver: &'a Driver,
    lists: Vec<List>,
    bytes: usize,
    /// Lists by what comes of them: accepted, refused with 2, the four rules.
    seen: [usize; 6],
    /// The slips that no list noticed yet.
    slips: Vec<Slip>,
    tally: Tally,
    error: io::Result<()>,
}

impl<'a> Judge<'a> {
    pub fn new(driver: &'a Driver) -> Self {
        Self {
            driver,
            lists: Vec::new(),
            bytes: 0,
            seen: [0; 6],
            slips: slips::all(),
            tally: Tally::default(),
            error: Ok(()),
        }
    }

    /// Takes a list. The slips are held to it at once.
    pub fn take(&mut self, list: Vec<u8>) {
        let expected = profile(&list);
        self.slips.retain(|slip| (slip.wrong)(&list) == expected);
        self.seen[match (expected.answer, expected.rule) {
            (0, _) => 0,
            (2, _) => 1,
            (_, rule) => 1 + rule as usize,
        }] += 1;
        self.bytes += 100 + list.len();
        self.lists.push(List(list));
        if self.bytes > BATCH && self.error.is_ok() {
            self.error = self.judge();
        }
    }

    /// Judges what was taken.
    fn judge(&mut self) -> io::Result<()> {
        let lists = std::mem::take(&mut self.lists);
        self.bytes = 0;
        let tally = &mut self.tally;
        self.driver
            .judge(&lists, |i, answer| tally.check(wrong(&lists[i].0, answer)))
    }

    /// Judges the rest; a slip that no list noticed and a result that none had are failures too.
    pub fn end(mut self) -> io::Result<Tally> {
        self.judge()?;
        self.error?;
        let [accepted, two, rules @ ..] = self.seen;
        println!("{accepted} lists accepted, {two} refused with 2, with 25 by rule {rules:?}");
        let missing = self.seen.contains(&0);
        self.tally
            .check(missing.then(|| "not every result came up".to_string()));
        let unnoticed = self.slips.iter().map(|slip| slip.name);
        self.tally.slips(slips::all().len(), unnoticed);
        Ok(self.tally)
    }
}

/// What is wrong with what the compiled check said of a list, if anything.
fn wrong(list: &[u8], answer: Option<&(Profile, u32)>) -> Option<String> {
    let expected = profile(list);
    let got = match answer {
        Some((told, 0)) if *told == expected => return None,
        Some((told, damage)) => format!("{told:?}, damage {damage}"),
        None => "died".to_string(),
    };
    let (length, first) = (list.len(), &list[..list.len().min(TOLD)]);
    Some(format!(
        "{length} bytes {first:02X?}\n  expected {expected:?}\n  got {got}"
    ))
}
