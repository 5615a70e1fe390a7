//! The bench host's trace against the interpreter.

mod by_hand;
mod check;
mod expected;
mod fields;
mod group;
mod slips;
mod text;

use check::{Asked, Showed};
use compare::tally::Tally;
use group::{Group, GROUPS};
use std::collections::BTreeMap;
use std::io;
use text::Shown;

/// What the traces have to show.
const SHOWN: [&str; 10] = [
    "completed",
    "waited",
    "RESET",
    "COMPUTE low",
    "refused by 5",
    "refused by 6",
    "refused by 8",
    "not used",
    "none of the attempts",
    "not run",
];

/// Checks the texts that were made by hand, then those of the bench host.
pub fn test(seed: u32, bench: Vec<String>, tally: &mut Tally) -> io::Result<()> {
    by_hand::test(&mut Judge::default(), tally);
    // What those show and tell is not counted: the bench host's have to show and tell it themselves.
    let mut judge = Judge::default();
    let groups = (0..=GROUPS).map(|at| Group::new(seed, at));
    for group in groups {
        group?.test(&bench, &mut judge, tally)?;
    }
    judge.end(tally);
    Ok(())
}

/// What the traces showed, and which slips they told.
#[derive(Default)]
pub struct Judge {
    decks: usize,
    showed: BTreeMap<String, usize>,
    told: BTreeMap<&'static str, usize>,
}

/// Checks the text with the trace of a deck, next to the one without.
fn checked(asked: &Asked<'_>, texts: [&str; 2]) -> Result<Showed, String> {
    match texts.map(Shown::of) {
        [Some(traced), Some(plain)] => asked.check(&traced, &plain),
        _ => Err("no text".to_string()),
    }
}

impl Judge {
    /// Checks a deck's trace.
    fn check(&mut self, asked: &Asked<'_>, texts: [&str; 2], tally: &mut Tally) {
        let showed = match checked(asked, texts) {
            Ok(Showed::Attempts(outcomes)) => outcomes,
            Ok(Showed::NoAttempt) => vec!["none of the attempts".to_string()],
            Ok(Showed::NoRun) => vec!["not run".to_string()],
            Err(wrong) => return tally.check(Some(format!("{asked}: {wrong}"))),
        };
        for what in showed {
            *self.showed.entry(what).or_default() += 1;
        }
        self.decks += 1;
        tally.check(None);
    }

    /// Holds a deck's trace to each slip. The head is altered in both texts: it is not told by their difference.
    fn tell(&mut self, asked: &Asked<'_>, [traced, plain]: [&str; 2], tally: &mut Tally) {
        for slip in slips::all() {
            let altered = match slip.altered(traced) {
                Some(altered) => altered,
                None => continue,
            };
            let plain = slip.altered(plain).unwrap_or_else(|| plain.to_string());
            match checked(asked, [&altered, &plain]) {
                Ok(_) => tally.check(Some(format!("{asked}: nothing tells: {}", slip.name))),
                Err(_) => *self.told.entry(slip.name).or_default() += 1,
            }
        }
    }

    /// Tells what was seen; what was to be and was not is a failure.
    fn end(self, tally: &mut Tally) {
        let showed = self.showed.iter();
        let showed: Vec<String> = showed
            .map(|(what, count)| format!("{what} {count}"))
            .collect();
        println!("{} decks traced: {}", self.decks, showed.join(", "));
        for what in SHOWN
            .iter()
            .filter(|what| !self.showed.contains_key(**what))
        {
            tally.check(Some(format!("no trace shows: {what}")));
        }
        let slips = slips::all();
        let names = slips.iter().map(|slip| slip.name);
        let unnoticed: Vec<&str> = names.filter(|name| !self.told.contains_key(name)).collect();
        println!(
            "{} texts with one thing altered told",
            self.told.values().sum::<usize>()
        );
        tally.slips(slips.len(), unnoticed.into_iter());
    }
}
