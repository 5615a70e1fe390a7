//! All that a vector does not name: low before, or high.

use crate::code::Code;
use crate::setting::Sample;
use compare::lines::{BUSY, COMPUTE, ICS, REPLY};
use compare::listing::Waits;
use interpreter::State;

/// What is not named.
#[derive(Clone, Copy, PartialEq, Eq)]
pub enum Background {
    /// Low.
    Low,
    /// High, a modification of no bits waiting.
    High,
}

impl Background {
    /// The state.
    pub fn state(self) -> State {
        match self {
            Background::Low => compare::background::state(false, 0x000),
            Background::High => compare::background::state(true, 0x010),
        }
    }

    /// A sample with which the code does not wait.
    pub fn sample(self, code: &Code) -> Sample {
        let sample = match self {
            Background::Low => Sample {
                data: 0,
                lines: COMPUTE,
                interrupts: 0,
            },
            Background::High => Sample {
                data: 0xFFFF,
                lines: COMPUTE | REPLY | BUSY | ICS,
                interrupts: 15,
            },
        };
        match code.waits() {
            Waits::Never => sample,
            Waits::Occupied => sample.with(REPLY | BUSY, 0),
            Waits::Unanswered => sample.with(0, REPLY),
        }
    }
}
