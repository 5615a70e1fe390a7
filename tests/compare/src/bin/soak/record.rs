//! What the runs showed: the log and the totals.

use crate::say;
use crate::settings::{Settings, Until};
use crate::subject::Subject;
use std::fs::File;
use std::io::{self, Write};
use std::ops::Range;
use std::time::{Duration, Instant};

/// Differences of one deck that are told; the rest are counted.
const TOLD: u64 = 100;
/// The log says so often how far the soak is.
const REMINDER: Duration = Duration::from_secs(600);

/// Runs that were made, and what was wrong with which.
pub struct Made {
    /// The deck's place.
    pub deck: usize,
    /// The runs.
    pub runs: Range<u64>,
    /// What was wrong with which.
    pub wrong: Vec<(u64, String)>,
}

#[derive(Clone, Copy, Default)]
struct Count {
    runs: u64,
    differences: u64,
}

/// The log, with the counts so far.
pub struct Record<'a> {
    subjects: &'a [Subject],
    until: Until,
    begun: Instant,
    reminded: Instant,
    counts: Vec<Count>,
    log: File,
}

impl<'a> Record<'a> {
    /// Begins the log.
    pub fn new(settings: &Settings, subjects: &'a [Subject], mut log: File) -> io::Result<Self> {
        writeln!(log, "begun {}", settings.told())?;
        for Subject {
            name,
            call,
            interpreted: left,
            ..
        } in subjects
        {
            let (bytes, report) = (call.deck.len(), left.report);
            writeln!(
                log,
                "{name}: {bytes} bytes; answer {}, attempts {}, microcycles {}",
                report.answer, report.attempts, report.microcycles
            )?;
        }
        let begun = Instant::now();
        Ok(Self {
            subjects,
            until: settings.until,
            begun,
            reminded: begun,
            counts: vec![Count::default(); subjects.len()],
            log,
        })
    }

    /// Counts runs, and tells what was wrong.
    pub fn add(&mut self, made: &Made) -> io::Result<()> {
        let count = &mut self.counts[made.deck];
        count.runs += made.runs.end - made.runs.start;
        for (run, wrong) in &made.wrong {
            count.differences += 1;
            if count.differences <= TOLD {
                let name = &self.subjects[made.deck].name;
                let seconds = self.begun.elapsed().as_secs();
                let line = format!("difference after {seconds} s: {name}, run {run}: {wrong}");
                say(&format!("soak: {line}\n"));
                writeln!(self.log, "{line}")?;
            }
        }
        if self.reminded.elapsed() >= REMINDER {
            self.reminded = Instant::now();
            writeln!(self.log, "so far {}", self.totals())?;
        }
        Ok(())
    }

    /// Whether anything differed.
    pub fn differs(&self) -> bool {
        self.counts.iter().any(|count| count.differences > 0)
    }

    /// All that was counted. Attempts and microcycles are those of runs without a difference.
    fn totals(&self) -> String {
        let sum = |of: &dyn Fn(&Count, &Subject) -> u64| -> u64 {
            let pairs = self.counts.iter().zip(self.subjects);
            pairs.map(|(count, subject)| of(count, subject)).sum()
        };
        let good = |count: &Count| count.runs - count.differences;
        let runs = sum(&|count, _| count.runs);
        let attempts = sum(&|count, of| good(count) * u64::from(of.interpreted.report.attempts));
        let microcycles =
            sum(&|count, of| good(count) * u64::from(of.interpreted.report.microcycles));
        let differences = sum(&|count, _| count.differences);
        let (decks, seconds) = (self.counts.len(), self.begun.elapsed().as_secs());
        format!("{decks} decks, {runs} runs, {attempts} attempts, {microcycles} microcycles, {differences} differences, {seconds} s")
    }

    /// Rate and time left, in one line.
    pub fn progress(&self) -> String {
        let weight = |subject: &Subject| f64::from(subject.interpreted.report.attempts);
        let pairs = self.counts.iter().zip(self.subjects);
        let attempts: f64 = pairs
            .map(|(count, of)| count.runs as f64 * weight(of))
            .sum();
        let elapsed = self.begun.elapsed().as_secs_f64();
        let all = match self.until {
            Until::Over(time) => time.as_secs_f64(),
            Until::Runs(runs) => {
                let all: f64 = self.subjects.iter().map(weight).sum();
                elapsed * (runs as f64 * all / attempts).max(1.0)
            }
        };
        let left = (all - elapsed).max(0.0) as u64;
        let (hours, minutes, seconds) = (left / 3600, left / 60 % 60, left % 60);
        let (rate, totals) = (attempts / elapsed, self.totals());
        format!("{totals}; {rate:.0} attempts/s; {hours}:{minutes:02}:{seconds:02} left")
    }

    /// Ends the log with the counts of each deck and the totals, which it gives back.
    pub fn end(mut self, how: &str) -> io::Result<String> {
        for (Count { runs, differences }, subject) in self.counts.iter().zip(self.subjects) {
            let name = &subject.name;
            writeln!(self.log, "{name}: {runs} runs, {differences} differences")?;
        }
        let totals = format!("soak: {}{how}", self.totals());
        writeln!(self.log, "{totals}")?;
        Ok(totals)
    }
}
