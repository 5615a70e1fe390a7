//! Runs decks over and over through the compiled engine, and holds each result to the first and to
//! the interpreter's: `soak DECK... -- DRIVER...`, with HOURS, RUNS, JOBS, LOG, SHOWN and DATE in the
//! environment. It ends orderly when its standard input does. The status is 0 when nothing differed,
//! 1 when something did, 2 after a refusal, 3 when it was interrupted and nothing differed.

#![forbid(unsafe_code)]

mod record;
mod schedule;
mod settings;
mod subject;
mod work;

use record::Record;
use settings::Settings;
use std::fs::File;
use std::io::{self, Write};
use std::process::ExitCode;
use std::thread;
use subject::Subject;

fn main() -> ExitCode {
    thread::spawn(|| {
        let _ = io::copy(&mut io::stdin(), &mut io::sink());
        work::interrupt();
    });
    match soak() {
        Ok(status) => ExitCode::from(status),
        Err(why) => {
            say(&format!("soak: {why}\n"));
            ExitCode::from(2)
        }
    }
}

/// Tells somebody, if there still is anybody: the terminal of a long soak may be closed.
fn say(text: &str) {
    let _ = io::stderr().write_all(text.as_bytes());
}

/// The whole soak; its status, or why there is none.
fn soak() -> Result<u8, String> {
    let settings = Settings::new()?;
    let subjects = match settings.decks.is_empty() {
        true => Subject::of_bench(),
        false => settings.decks.iter().map(Subject::of_file).collect(),
    };
    let mut subjects: Vec<Subject> = subjects?;
    let unwritten = |error: io::Error| format!("{}: {error}", settings.log);
    let unstarted = |error: io::Error| format!("{}: {error}", settings.driver.join(" "));
    let first = work::first_runs(&settings.driver, &mut subjects).map_err(unstarted)?;
    let log = File::create(&settings.log).map_err(unwritten)?;
    let mut record = Record::new(&settings, &subjects, log).map_err(unwritten)?;
    for made in &first {
        record.add(made).map_err(unwritten)?;
    }
    let ended = work::further_runs(&settings, &subjects, &mut record);
    if settings.shown {
        say("\r\x1b[K");
    }
    let (how, status) = match ended {
        Ok(true) => ("", 0),
        Ok(false) => (", interrupted", 3),
        Err(error) => {
            say(&format!("soak: {error}\n"));
            (", broken off", 2)
        }
    };
    let status = if record.differs() { 1 } else { status };
    let totals = record.end(how).map_err(unwritten)?;
    // The log has it too, where nobody reads this.
    let _ = writeln!(io::stdout(), "{totals}");
    Ok(status)
}
