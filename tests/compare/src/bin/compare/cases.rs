//! The generated cases.

use compare::call::Call;
use interpreter::decks::{self, Kind};
use interpreter::STATE_BYTES;
use std::fmt;

/// How many single attempts there are: as many of each of the 256 top bytes.
const SINGLES: u64 = 256 * 5000;

/// A case, made again from its seed whenever it is needed.
#[derive(Clone, Copy)]
pub struct Case {
    /// The kind of a whole deck, or nothing for a single attempt.
    kind: Option<Kind>,
    seed: u64,
}

impl Case {
    /// The call of this case.
    pub fn call(&self) -> Call {
        match self.kind {
            Some(kind) => {
                let case = decks::case(kind, self.seed);
                Call::patterned(case.deck, case.requests, case.state).marked(case.marking)
            }
            // Up to a place more than is needed.
            None => {
                let (single, room) = (decks::single(self.seed), 4 + self.seed as usize % 5);
                let call = Call::patterned(single.deck(), room, STATE_BYTES);
                call.marked(single.marking.number())
            }
        }
    }
}

impl fmt::Display for Case {
    fn fmt(&self, f: &mut fmt::Formatter<'_>) -> fmt::Result {
        match self.kind {
            Some(kind) => write!(f, "deck of kind {kind:?}, seed {}", self.seed),
            None => write!(f, "single attempt, seed {}", self.seed),
        }
    }
}

/// Every single attempt under a seed.
pub fn singles(seed: u32) -> impl Iterator<Item = Case> {
    seeds(seed, SINGLES).map(|seed| Case { kind: None, seed })
}

/// Every whole deck under a seed.
pub fn decks(seed: u32) -> impl Iterator<Item = Case> {
    let some = move |kind| {
        seeds(seed, count(kind)).map(move |seed| Case {
            kind: Some(kind),
            seed,
        })
    };
    Kind::ALL.into_iter().flat_map(some)
}

fn seeds(seed: u32, count: u64) -> impl Iterator<Item = u64> {
    (0..count).map(move |at| u64::from(seed) << 32 | at)
}

/// How many decks of a kind; fewer of those that take long.
fn count(kind: Kind) -> u64 {
    match kind {
        Kind::Largest => 60,
        Kind::Long => 600,
        Kind::DeckLong | Kind::WordsMany => 1000,
        _ => 2600,
    }
}
