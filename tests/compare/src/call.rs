//! One call of `run` and what it leaves behind.

use interpreter::{Marking, Report};

/// The deck, both buffers as they are before, and the marking.
#[derive(Clone, Debug)]
pub struct Call {
    /// The deck's bytes.
    pub deck: Vec<u8>,
    /// The request buffer.
    pub requests: Vec<u8>,
    /// The state buffer.
    pub state: Vec<u8>,
    /// The number of the marking.
    pub marking: u32,
}

impl Call {
    /// Buffers of these lengths, filled with a pattern that shows a byte which moved; CP1661B.
    pub fn patterned(deck: Vec<u8>, requests: usize, state: usize) -> Self {
        let pattern =
            |start: usize, len: usize| (0..len).map(|at| ((start + at) * 151) as u8).collect();
        Self {
            requests: pattern(deck.len(), requests),
            state: pattern(deck.len() + 1, state),
            deck,
            marking: Marking::Cp1661b.number(),
        }
    }

    /// The call under the marking of this number.
    pub fn marked(self, marking: u32) -> Self {
        Self { marking, ..self }
    }

    /// What the interpreter leaves behind.
    pub fn interpreted(&self) -> Left {
        let (mut requests, mut state) = (self.requests.clone(), self.state.clone());
        let report = interpreter::run(&self.deck, &mut requests, &mut state, self.marking);
        Left {
            report,
            damage: 0,
            requests,
            state,
        }
    }
}

/// The report and both buffers as they are after.
#[derive(Clone, Debug, PartialEq, Eq)]
pub struct Left {
    /// Answer, attempts, microcycles.
    pub report: Report,
    /// What was touched that may not be, by the driver's bits; 0 when nothing was.
    pub damage: u32,
    /// The request buffer.
    pub requests: Vec<u8>,
    /// The state buffer.
    pub state: Vec<u8>,
}

impl Left {
    /// The request at a place, when the buffer has it.
    pub fn request(&self, place: usize) -> Option<u32> {
        let bytes = self.requests.get(4 * place..4 * place + 4)?;
        Some(u32::from_le_bytes(bytes.try_into().ok()?))
    }
}
