//! Holds the compiled functions to the cases.

use crate::call::{Call, Function, Left};
use crate::cases::Case;
use crate::rules::Rules;
use crate::slips::{self, Slip};
use compare::driver::Driver;
use compare::tally::Tally;
use std::io;

/// Bytes of the calls in one process of the driver.
const BATCH: usize = 4_000_000;
/// Every answer of each function.
const ANSWERS: [(Function, &[u32]); 2] = [
    (Function::Assemble, &[0, 10, 11, 12, 27]),
    (Function::List, &[0, 2, 6, 27]),
];

/// Takes cases and calls the compiled functions in batches.
pub struct Judge<'a> {
    driver: &'a Driver,
    rules: &'a Rules,
    calls: Vec<Call>,
    expected: Vec<Left>,
    bytes: usize,
    seen: Vec<((Function, u32), usize)>,
    /// The slips that no case noticed yet.
    slips: Vec<Slip>,
    tally: Tally,
    error: io::Result<()>,
}

impl<'a> Judge<'a> {
    pub fn new(driver: &'a Driver, rules: &'a Rules) -> Self {
        let seen = ANSWERS
            .iter()
            .flat_map(|(function, answers)| answers.iter().map(|answer| ((*function, *answer), 0)));
        Self {
            driver,
            rules,
            calls: Vec::new(),
            expected: Vec::new(),
            bytes: 0,
            seen: seen.collect(),
            slips: slips::all(),
            tally: Tally::default(),
            error: Ok(()),
        }
    }

    /// Takes a case. The rules themselves and the slips are held to it at once.
    pub fn take(&mut self, case: Case) {
        let Case { call, expected } = case;
        let ours = call.by(self.rules);
        if ours != expected {
            self.tally
                .check(Some(difference("the rules", &call, &expected, Some(&ours))));
        }
        self.slips.retain(|slip| (slip.wrong)(&call) == expected);
        let seen = self
            .seen
            .iter_mut()
            .find(|(what, _)| *what == (call.function, expected.answer));
        if let Some((_, count)) = seen {
            *count += 1;
        }
        self.bytes += 100 + call.input.len() + call.output.len();
        self.calls.push(call);
        self.expected.push(expected);
        if self.bytes > BATCH && self.error.is_ok() {
            self.error = self.judge();
        }
    }

    /// Judges what was taken.
    fn judge(&mut self) -> io::Result<()> {
        let (calls, expected) = (
            std::mem::take(&mut self.calls),
            std::mem::take(&mut self.expected),
        );
        self.bytes = 0;
        let tally = &mut self.tally;
        self.driver.judge(&calls, |i, answer| {
            let left = answer.map(|(left, _)| left);
            let same = left == Some(&expected[i]);
            tally.check((!same).then(|| difference("compiled", &calls[i], &expected[i], left)));
        })
    }

    /// Judges the rest; a slip that nothing noticed and an answer that nothing got are failures too.
    pub fn end(mut self) -> io::Result<Tally> {
        self.judge()?;
        self.error?;
        for ((function, answer), count) in &self.seen {
            println!("{function:?}, answer {answer}: {count} calls");
            self.tally
                .check((*count == 0).then(|| format!("no case gets {answer} of {function:?}")));
        }
        let unnoticed = self.slips.iter().map(|slip| slip.name);
        self.tally.slips(slips::all().len(), unnoticed);
        Ok(self.tally)
    }
}

fn difference(side: &str, call: &Call, expected: &Left, left: Option<&Left>) -> String {
    let left = left.map_or("died".to_string(), |left| call.left(left));
    format!(
        "{call}\n  expected: {}\n  {side}: {left}",
        call.left(expected)
    )
}
