//! An independent interpreter of the MCP-1600's microinstructions: the reference that the proved
//! engine is compared with, and the baseline of its speed.
//!
//! [`run`] is the bench host's entry over a deck's bytes, [`attempt`] is one attempt of it,
//! [`run_with_memory`] is the entry with a memory on the bus, and [`profile`] is the check of the
//! service profile.
//! [`decks`] makes inputs for comparison.

#![forbid(unsafe_code)]
#![warn(missing_docs)]

mod alu;
mod attempt;
mod code;
mod deck;
pub mod decks;
mod execute;
mod marking;
mod memory;
mod profile;
mod row;
mod sample;
mod state;

pub use attempt::{attempt, Outcome};
pub use deck::{run, section, Report, DECK_LIMIT};
pub use marking::{q1, Marking};
pub use memory::{run_with_memory, watch, Kept, Lent, Rules, Watched, RULES};
pub use profile::{profile, Profile};
pub use row::Row;
pub use sample::Sample;
pub use state::{place, State, STATE_BYTES};
