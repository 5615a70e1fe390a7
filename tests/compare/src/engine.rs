//! The compiled engine, called through its driver.

use crate::call::{Call, Left};
use crate::driver::{long_number, number, Asked, Driver};
use interpreter::Report;
use std::io::{self, Read, Write};

/// The engine behind its driver.
pub struct Engine(Driver);

/// An answer of the driver.
pub struct Answer {
    /// What the call left behind.
    pub left: Left,
    /// How long the engine took.
    pub nanoseconds: u64,
}

/// How an answer begins, with a memory or without.
pub(crate) struct Head {
    pub report: Report,
    pub damage: u32,
    pub nanoseconds: u64,
}

pub(crate) fn head(output: &mut impl Read) -> io::Result<Head> {
    let report = Report {
        answer: number(output)?,
        attempts: number(output)?,
        microcycles: number(output)?,
    };
    Ok(Head {
        report,
        damage: number(output)?,
        nanoseconds: long_number(output)?,
    })
}

impl Engine {
    /// The engine behind this command, which is not empty.
    pub fn new(command: Vec<String>) -> Self {
        Self(Driver::new(command))
    }

    /// What each call leaves behind, by the engine and by the interpreter.
    pub fn both(&self, calls: &[Call]) -> io::Result<[(&'static str, Vec<Left>); 2]> {
        let by_engine = self.run(calls)?.into_iter().map(|answer| answer.left);
        let by_interpreter = calls.iter().map(Call::interpreted);
        Ok([
            ("engine", by_engine.collect()),
            ("interpreter", by_interpreter.collect()),
        ])
    }

    /// Runs the calls in one process. When that dies, answers are missing from the call that killed
    /// it on.
    pub fn run(&self, calls: &[Call]) -> io::Result<Vec<Answer>> {
        self.0.run(calls)
    }
}

impl Asked for Call {
    type Answer = Answer;

    fn send(&self, input: &mut impl Write) -> io::Result<()> {
        let parts = [&self.deck, &self.requests, &self.state];
        for part in parts {
            input.write_all(&(part.len() as u32).to_le_bytes())?;
        }
        input.write_all(&self.marking.to_le_bytes())?;
        for part in parts {
            input.write_all(part)?;
        }
        Ok(())
    }

    fn receive(&self, output: &mut impl Read) -> io::Result<Answer> {
        let Head {
            report,
            damage,
            nanoseconds,
        } = head(output)?;
        let mut left = Left {
            report,
            damage,
            requests: vec![0; self.requests.len()],
            state: vec![0; self.state.len()],
        };
        output.read_exact(&mut left.requests)?;
        output.read_exact(&mut left.state)?;
        Ok(Answer { left, nanoseconds })
    }
}
