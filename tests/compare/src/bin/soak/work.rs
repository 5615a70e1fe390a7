//! The runs: each job has a process of the driver for each batch.

use crate::record::{Made, Record};
use crate::say;
use crate::schedule::{Batch, Schedule};
use crate::settings::Settings;
use crate::subject::{Run, Subject};
use compare::driver::Driver;
use compare::engine::Engine;
use std::io;
use std::sync::atomic::{AtomicBool, Ordering};
use std::sync::mpsc::{channel, Receiver, RecvTimeoutError, Sender};
use std::sync::Mutex;
use std::thread;
use std::time::{Duration, Instant};

/// Progress is shown so often.
const TICK: Duration = Duration::from_secs(1);
const NO_ANSWER: &str = "no answer, the driver died";

/// No batch begins any more.
static STOPPED: AtomicBool = AtomicBool::new(false);

/// Ends the soak after the batches at work.
pub fn interrupt() {
    STOPPED.store(true, Ordering::Relaxed);
}

fn interrupted() -> bool {
    STOPPED.load(Ordering::Relaxed)
}

/// The first run of each deck, which its others are held to.
pub fn first_runs(driver: &[String], subjects: &mut [Subject]) -> io::Result<Vec<Made>> {
    let engine = Engine::new(driver.to_vec());
    let mut all = Vec::new();
    for (deck, subject) in subjects.iter_mut().enumerate() {
        let answers = engine.run(std::slice::from_ref(&subject.call))?;
        let wrong = match answers.into_iter().next() {
            Some(answer) => {
                subject.first = answer.left;
                subject.wrong(&subject.first)
            }
            None => Some(NO_ANSWER.to_string()),
        };
        let wrong = wrong.into_iter().map(|wrong| (1, wrong)).collect();
        let runs = 1..2;
        all.push(Made { deck, runs, wrong });
    }
    Ok(all)
}

/// All other runs; whether they came to their end.
pub fn further_runs(
    settings: &Settings,
    subjects: &[Subject],
    record: &mut Record<'_>,
) -> io::Result<bool> {
    let schedule = Schedule::new(settings.until, Instant::now(), subjects.len());
    let job = Job {
        driver: Driver::new(settings.driver.clone()),
        subjects,
        schedule: Mutex::new(schedule),
    };
    let recorded = thread::scope(|scope| {
        let (tell, told) = channel();
        for _ in 0..settings.jobs {
            let tell = tell.clone();
            scope.spawn(|| job.work(tell));
        }
        drop(tell);
        recorded(told, settings.shown, record)
    });
    recorded?;
    Ok(job.ended())
}

/// Writes down what the jobs tell, until all have ended.
fn recorded(
    told: Receiver<io::Result<Made>>,
    shown: bool,
    record: &mut Record<'_>,
) -> io::Result<()> {
    let mut next = Instant::now() + TICK;
    loop {
        match told.recv_timeout(next.saturating_duration_since(Instant::now())) {
            Ok(made) => record.add(&made?)?,
            Err(RecvTimeoutError::Timeout) => {}
            Err(RecvTimeoutError::Disconnected) => return Ok(()),
        }
        if Instant::now() >= next {
            next = Instant::now() + TICK;
            if shown {
                say(&format!("\r\x1b[K{}", record.progress()));
            }
        }
    }
}

/// What the jobs share.
struct Job<'a> {
    driver: Driver,
    subjects: &'a [Subject],
    schedule: Mutex<Schedule>,
}

impl Job<'_> {
    /// Runs batches while there are any and somebody listens.
    fn work(&self, tell: Sender<io::Result<Made>>) {
        while let Some(batch) = self.next() {
            let begun = Instant::now();
            let made = self.run(&batch);
            if let Ok(mut schedule) = self.schedule.lock() {
                schedule.took(&batch, begun.elapsed());
            }
            if tell.send(made).is_err() {
                break;
            }
        }
    }

    fn next(&self) -> Option<Batch> {
        match interrupted() {
            true => None,
            false => self.schedule.lock().ok()?.next(),
        }
    }

    fn ended(&self) -> bool {
        self.schedule
            .lock()
            .map_or(false, |schedule| schedule.ended())
    }

    fn over(&self) -> bool {
        self.schedule
            .lock()
            .map_or(true, |schedule| schedule.over())
    }

    /// Runs a batch. A run that kills the driver has no answer, and another process goes on with
    /// the next.
    fn run(&self, batch: &Batch) -> io::Result<Made> {
        let (deck, mut runs) = (batch.deck, batch.runs.start..batch.runs.start);
        let mut wrong = Vec::new();
        while runs.end < batch.runs.end {
            let rest = batch.runs.end - runs.end;
            let answers = self
                .driver
                .run(&vec![Run(&self.subjects[deck]); rest as usize])?;
            let answers = answers.into_iter();
            let missing = answers.len() < rest as usize;
            for answer in answers {
                wrong.extend(answer.map(|wrong| (runs.end, wrong)));
                runs.end += 1;
            }
            if missing {
                wrong.push((runs.end, NO_ANSWER.to_string()));
                runs.end += 1;
                if interrupted() || self.over() {
                    break;
                }
            }
        }
        Ok(Made { deck, runs, wrong })
    }
}
