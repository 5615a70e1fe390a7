//! The compiled engine and the interpreter on the same inputs.

#![forbid(unsafe_code)]
#![warn(missing_docs)]

pub mod background;
pub mod call;
pub mod deck;
pub mod describe;
pub mod difference;
pub mod driver;
pub mod engine;
pub mod fields;
pub mod flags;
pub mod lines;
pub mod listing;
pub mod memory;
pub mod tally;
