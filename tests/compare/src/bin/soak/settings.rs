//! What is soaked and until when.

use std::str::FromStr;
use std::time::Duration;
use std::{env, thread};

/// The hours without HOURS and RUNS: a night.
const NIGHT: &str = "8";
const SECONDS_PER_HOUR: f64 = 3600.0;
/// Over a year.
const HOURS_AT_MOST: f64 = 10_000.0;

/// When a soak ends by itself.
#[derive(Clone, Copy)]
pub enum Until {
    /// After this time.
    Over(Duration),
    /// After so many runs of each deck.
    Runs(u64),
}

/// What the command line and the environment say.
pub struct Settings {
    /// When it ends.
    pub until: Until,
    /// Drivers at work at a time.
    pub jobs: usize,
    /// The log's file.
    pub log: String,
    /// Whether progress is shown.
    pub shown: bool,
    /// When it was begun.
    date: String,
    /// The decks' files; none stands for those of the bench.
    pub decks: Vec<String>,
    /// The driver, an emulator perhaps first.
    pub driver: Vec<String>,
}

impl Settings {
    /// The arguments `DECK... -- DRIVER...`, and HOURS, RUNS, JOBS, LOG, SHOWN and DATE of the
    /// environment.
    pub fn new() -> Result<Self, String> {
        let mut words = env::args().skip(1);
        let decks = words.by_ref().take_while(|word| word != "--").collect();
        let driver: Vec<String> = words.collect();
        if driver.is_empty() {
            return Err("usage: soak DECK... -- DRIVER [ARGUMENT...]".to_string());
        }
        Ok(Self {
            until: until(set("HOURS"), set("RUNS"))?,
            jobs: jobs(set("JOBS"))?,
            log: set("LOG").unwrap_or_else(|| "target/soak.log".to_string()),
            shown: set("SHOWN").is_some(),
            date: set("DATE").unwrap_or_default(),
            decks,
            driver,
        })
    }

    /// All that was chosen, in words.
    pub fn told(&self) -> String {
        let until = match self.until {
            Until::Over(time) => format!("{} s", time.as_secs_f64()),
            Until::Runs(runs) => format!("{runs} runs of each deck"),
        };
        let decks = match self.decks.is_empty() {
            true => "those of the bench".to_string(),
            false => self.decks.join(" "),
        };
        let (date, jobs, driver) = (&self.date, self.jobs, self.driver.join(" "));
        format!("{date}: {until}, {jobs} jobs, driver {driver}, decks {decks}")
    }
}

/// A variable of the environment that is not empty.
fn set(name: &str) -> Option<String> {
    env::var(name).ok().filter(|value| !value.is_empty())
}

fn until(hours: Option<String>, runs: Option<String>) -> Result<Until, String> {
    match (hours, runs) {
        (Some(_), Some(_)) => Err("HOURS or RUNS, not both".to_string()),
        (None, Some(runs)) => match decimal(&runs) {
            Some(count) if count > 0 => Ok(Until::Runs(count)),
            _ => Err(format!("RUNS={runs}: not a number of runs, 1 or more")),
        },
        (hours, None) => over(&hours.unwrap_or_else(|| NIGHT.to_string())),
    }
}

fn over(hours: &str) -> Result<Until, String> {
    match decimal::<f64>(hours) {
        Some(count) if count > 0.0 && count <= HOURS_AT_MOST => {
            let seconds = count * SECONDS_PER_HOUR;
            Ok(Until::Over(Duration::from_secs_f64(seconds)))
        }
        _ => Err(format!(
            "HOURS={hours}: not a number of hours, over 0 and up to {HOURS_AT_MOST}"
        )),
    }
}

fn jobs(jobs: Option<String>) -> Result<usize, String> {
    match jobs {
        None => Ok(thread::available_parallelism().map_or(1, usize::from)),
        Some(jobs) => match decimal(&jobs) {
            Some(count @ 1..=1024) => Ok(count),
            _ => Err(format!("JOBS={jobs}: not a number from 1 to 1024")),
        },
    }
}

/// A number in digits, a point perhaps among them.
fn decimal<N: FromStr>(text: &str) -> Option<N> {
    let digits = text.bytes().all(|byte| matches!(byte, b'0'..=b'9' | b'.'));
    text.parse().ok().filter(|_| digits)
}
