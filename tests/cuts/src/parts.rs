//! Decks run in parts against one run, by the compiled engine and by the interpreter.

use crate::cutter::{Cuts, Manner, Parts, RIGHT};
use crate::seen::Seen;
use crate::slips;
use crate::subject::Subject;
use compare::call::{Call, Left};
use compare::describe::wrong;
use compare::engine::Engine;
use compare::tally::Tally;
use std::io;

/// Decks that one run does not refuse by 9, 24 or 1-4.
const DECKS: usize = 100_000;
/// Decks, those outside the claim among them, that go through a part together.
const BATCH: usize = 5000;
/// Decks that have to tell the slips.
const TELLING: usize = 1000;
/// Progress is told after so many decks.
const TOLD: usize = 25_000;

/// What each of these calls leaves behind; those that died and the ones behind them are missing.
type Side<'a> = &'a dyn Fn(&[Call]) -> io::Result<Vec<Left>>;

/// A deck inside the claim.
pub struct Case {
    pub subject: Subject,
    /// One run, and what the engine leaves behind of it.
    pub call: Call,
    pub left: Left,
    pub cuts: Cuts,
}

/// Cuts all decks; the first of them have to tell the slips.
pub fn test(seed: u32, driver: Vec<String>, tally: &mut Tally) -> io::Result<()> {
    let engine = Engine::new(driver);
    let by_engine = |calls: &[Call]| -> io::Result<Vec<Left>> {
        let answers = engine.run(calls)?.into_iter();
        Ok(answers.map(|answer| answer.left).collect())
    };
    println!("seed {seed}: {DECKS} decks are cut");
    let (mut seen, mut done, mut outside) = (Seen::default(), 0, 0);
    let seeds = (0..).map(|at: u64| u64::from(seed) << 32 | at);
    let mut subjects = seeds.map(Subject::new);
    while done < DECKS {
        let batch: Vec<Subject> = subjects.by_ref().take(BATCH).collect();
        let mut cases = inside(&by_engine, &batch, tally)?;
        outside += batch.len() - cases.len();
        cases.truncate(DECKS - done);
        if done == 0 {
            tell(&by_engine, &cases[..cases.len().min(TELLING)], tally)?;
        }
        compare(&by_engine, &cases, &mut seen, tally)?;
        if done / TOLD < (done + cases.len()) / TOLD {
            println!("{} decks", done + cases.len());
        }
        done += cases.len();
        if tally.failed > 0 {
            break;
        }
    }
    seen.print();
    println!("{outside:>7} more are outside the claim: refused by 9, 24 or 1-4");
    for what in seen.missing() {
        tally.check(Some(what));
    }
    Ok(())
}

/// The decks of a batch that one run does not refuse as a whole. It is held to the interpreter.
fn inside(engine: Side<'_>, batch: &[Subject], tally: &mut Tally) -> io::Result<Vec<Case>> {
    let calls: Vec<Call> = batch.iter().map(Subject::call).collect();
    let mut lefts = engine(&calls)?.into_iter();
    let mut cases = Vec::new();
    for (subject, call) in batch.iter().zip(calls) {
        let left = lefts.next();
        if let Some(wrong) = wrong(&call.interpreted(), left.as_ref()) {
            tally.check(Some(format!("{subject}: in one run {wrong}")));
        }
        let left = left.filter(|left| matches!(left.report.answer, 0 | 5..=8));
        let cuts = left.as_ref().and_then(|left| subject.cuts(&call, left));
        cases.extend(left.zip(cuts).map(|(left, cuts)| Case {
            subject: *subject,
            call,
            left,
            cuts,
        }));
    }
    Ok(cases)
}

/// Each deck in parts, by what a side leaves behind of each; all have sections, being inside the claim.
fn in_parts<'a>(
    side: Side<'_>,
    cases: &'a [Case],
    manner: &'a Manner,
) -> io::Result<Vec<Parts<'a>>> {
    let parts = cases
        .iter()
        .filter_map(|case| Parts::new(&case.call, &case.cuts, manner));
    let mut all: Vec<Parts<'a>> = parts.collect();
    loop {
        let next = all.iter_mut().filter_map(|parts| {
            let call = parts.next()?;
            Some((parts, call))
        });
        let (going, calls): (Vec<_>, Vec<Call>) = next.unzip();
        if calls.is_empty() {
            return Ok(all);
        }
        let lefts = side(&calls)?;
        for (at, parts) in going.into_iter().enumerate() {
            parts.take(lefts.get(at));
        }
    }
}

/// Compares the parts of each deck with one run.
fn compare(engine: Side<'_>, cases: &[Case], seen: &mut Seen, tally: &mut Tally) -> io::Result<()> {
    let interpreter = |calls: &[Call]| Ok(calls.iter().map(Call::interpreted).collect());
    let by_engine = in_parts(engine, cases, &RIGHT)?;
    let by_interpreter = in_parts(&interpreter, cases, &RIGHT)?;
    for (case, sides) in cases.iter().zip(by_engine.iter().zip(&by_interpreter)) {
        let sides = [("engine", sides.0), ("interpreter", sides.1)];
        let wrong = sides.iter().find_map(|(side, parts)| {
            let wrong = wrong(&case.left, parts.left())?;
            let (subject, places) = (case.subject, &case.cuts.places);
            Some(format!("{subject}, cut at {places:?}, {side}: {wrong}"))
        });
        tally.check(wrong);
        seen.count(case, sides[0].1);
    }
    Ok(())
}

/// Runs the decks in each wrong manner, of which the comparison has to tell.
fn tell(engine: Side<'_>, cases: &[Case], tally: &mut Tally) -> io::Result<()> {
    let slips = slips::all();
    let mut unnoticed = Vec::new();
    for slip in &slips {
        let all = in_parts(engine, cases, &slip.manner)?;
        let pairs = cases.iter().zip(&all);
        let told = pairs.filter(|(case, parts)| parts.left() != Some(&case.left));
        let told = told.count();
        println!("{told:>7} of {} decks tell: {}", cases.len(), slip.name);
        if told == 0 {
            unnoticed.push(slip.name);
        }
    }
    tally.slips(slips.len(), unnoticed.into_iter());
    Ok(())
}
