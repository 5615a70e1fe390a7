//! A vector: a draft and what the engine made of it.

use crate::draft::Draft;
use compare::call::Left;
use interpreter::State;

/// A vector.
pub struct Vector {
    /// What it starts from and shows.
    pub draft: Draft,
    /// What the engine left behind.
    pub left: Left,
}

impl Vector {
    /// The state after, when the engine wrote one.
    pub fn after(&self) -> Option<State> {
        State::from_bytes(self.left.state.as_slice().try_into().ok()?)
    }

    /// The request of each attempt that was made.
    pub fn requests(&self) -> Vec<u32> {
        let made = 0..self.left.report.attempts as usize;
        made.filter_map(|at| self.left.request(at)).collect()
    }
}
