//! What the decks showed.

use crate::cutter::{Cuts, Parts, MARKS, WAITING};
use crate::parts::Case;
use compare::call::{Call, Left};
use compare::deck::Sections;
use interpreter::Marking;

/// A deck of so many samples is a long one.
const LONG: usize = 1000;

/// How many decks showed each thing, all of which have to be there.
#[derive(Default)]
pub struct Seen(Vec<(&'static str, usize)>);

impl Seen {
    /// Takes in a deck that was run in parts.
    pub fn count(&mut self, case: &Case, parts: &Parts<'_>) {
        let (call, cuts, left) = (&case.call, &case.cuts, &case.left);
        let samples = Sections::of(&call.deck).map_or(0, |own| own.samples.len() / 4);
        let shown = [
            answers(left).to_vec(),
            refusals(cuts, parts, left).to_vec(),
            places(cuts, samples).to_vec(),
            surroundings(call, cuts, samples).to_vec(),
            vec![
                ("damaged and still in range", case.subject.damage > 0),
                ("cut while a modification waited", parts.waiting > 0),
                (
                    "ended with a modification waiting",
                    left.state[MARKS] & WAITING != 0,
                ),
            ],
        ];
        for (at, (name, shown)) in shown.concat().into_iter().enumerate() {
            if at == self.0.len() {
                self.0.push((name, 0));
            }
            self.0[at].1 += usize::from(shown);
        }
    }

    /// Prints the counts.
    pub fn print(&self) {
        for (name, count) in &self.0 {
            println!("{count:>7} {name}");
        }
    }

    /// What the decks were to show and did not.
    pub fn missing(&self) -> Vec<String> {
        let none = self.0.iter().filter(|(_, count)| *count == 0);
        let none = none.map(|(name, _)| format!("no deck {name}"));
        let nothing = self.0.is_empty().then(|| "no deck at all".to_string());
        none.chain(nothing).collect()
    }
}

/// Whether a deck showed something.
type Shown = (&'static str, bool);

fn answers(left: &Left) -> [Shown; 4] {
    let is = |answer: u32| left.report.answer == answer;
    [
        ("ended with 0", is(0)),
        ("refused by 5", is(5)),
        ("refused by 6", is(6)),
        ("refused by 8", is(8)),
    ]
}

/// In which of several parts the refusal was.
fn refusals(cuts: &Cuts, parts: &Parts<'_>, left: &Left) -> [Shown; 4] {
    let (refused, last) = (left.report.answer != 0, cuts.places.len() + 1);
    let first_sample = refused && cuts.places.contains(&(left.report.attempts as usize));
    [
        (
            "refused in the first of its parts",
            refused && parts.made == 1 && last > 1,
        ),
        (
            "refused in a middle part",
            refused && parts.made > 1 && parts.made < last,
        ),
        (
            "refused in the last of its parts",
            refused && parts.made == last && last > 1,
        ),
        ("cut right before the refused attempt", first_sample),
    ]
}

fn places(cuts: &Cuts, samples: usize) -> [Shown; 5] {
    let places = &cuts.places;
    let inner = places.iter().any(|&cut| cut > 0 && cut < samples);
    let again = places.windows(2).any(|pair| pair[0] == pair[1]);
    [
        ("cut at 0", places.contains(&0)),
        ("cut at the end", places.contains(&samples)),
        ("cut between two samples", inner),
        ("cut twice at one place", again),
        ("cut four times or more", places.len() > 3),
    ]
}

fn surroundings(call: &Call, cuts: &Cuts, samples: usize) -> [Shown; 6] {
    let is = |marking: Marking| call.marking == marking.number();
    let exact = call.requests.len() == 4 * samples;
    [
        ("of CP1661B", is(Marking::Cp1661b)),
        ("of CP1621B", is(Marking::Cp1621b)),
        ("with as many places as samples", exact),
        ("with a longer request buffer", !exact),
        ("with parts that have their own places alone", cuts.narrow),
        ("of 1000 samples or more", samples >= LONG),
    ]
}
