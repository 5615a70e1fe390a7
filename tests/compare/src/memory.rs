//! One call of `run_with_memory` and what it leaves behind.

use crate::call::{self, Call};
use crate::deck::Sections;
use crate::describe;
use crate::driver::Asked;
use crate::engine::{head, Head};
use interpreter::{watch, Lent, Rules, Sample, Watched, RULES};
use std::io::{self, Read, Write};

/// A call with a memory on the bus.
#[derive(Clone, Debug)]
pub struct WithMemory {
    /// Deck, buffers and marking.
    pub call: Call,
    /// The memory as it is before.
    pub memory: Vec<u8>,
    /// The reply delay.
    pub delay: u32,
}

/// What it leaves behind.
#[derive(Clone, Debug, PartialEq, Eq)]
pub struct Left {
    /// Report, requests and state.
    pub left: call::Left,
    /// The memory.
    pub memory: Vec<u8>,
}

/// An answer of the driver.
pub struct Answer {
    /// What the call left behind.
    pub left: Left,
    /// How long the engine took.
    pub nanoseconds: u64,
}

impl WithMemory {
    /// What the interpreter leaves behind.
    pub fn interpreted(&self) -> Left {
        self.watched(&RULES, |_| {})
    }

    /// What it leaves behind under any rules, each attempt watched.
    pub fn watched(&self, rules: &Rules, watching: impl FnMut(Watched<'_>)) -> Left {
        let call = self.call.clone();
        let (mut memory, mut requests, mut state) =
            (self.memory.clone(), call.requests, call.state);
        let lent = Lent {
            bytes: &mut memory,
            delay: self.delay,
        };
        let report = watch(
            rules,
            &self.call.deck,
            lent,
            &mut requests,
            &mut state,
            call.marking,
            watching,
        );
        let left = call::Left {
            report,
            damage: 0,
            requests,
            state,
        };
        Left { left, memory }
    }
}

impl WithMemory {
    /// The call without a memory whose samples are these lines, as far as they go: those that the
    /// attempts of this call saw.
    pub fn without(&self, lines: impl Iterator<Item = Sample>) -> Call {
        let mut call = self.call.clone();
        if let Some(sections) = Sections::of(&self.call.deck) {
            let mut samples = sections.samples.to_vec();
            for (place, sample) in samples.chunks_exact_mut(4).zip(lines) {
                place.copy_from_slice(&sample.to_bytes());
            }
            let samples = &samples;
            let seen = Sections {
                samples,
                ..sections
            }
            .deck();
            // A deck with bytes left over keeps them.
            call.deck[..seen.len()].copy_from_slice(&seen);
        }
        call
    }
}

impl Left {
    /// What is wrong with what was left behind, if anything.
    pub fn wrong(&self, got: Option<&Left>) -> Option<String> {
        let memory = got.and_then(|got| {
            let pairs = self.memory.iter().zip(&got.memory);
            let (at, (expected, got)) = pairs.enumerate().find(|(_, (own, got))| own != got)?;
            Some(format!(
                "memory at {at:04X}: expected {expected:02X}, got {got:02X}"
            ))
        });
        describe::wrong(&self.left, got.map(|got| &got.left)).or(memory)
    }
}

impl Asked for WithMemory {
    type Answer = Answer;

    fn send(&self, input: &mut impl Write) -> io::Result<()> {
        let call = &self.call;
        let parts = [&call.deck, &self.memory, &call.requests, &call.state];
        let lengths = parts.map(|part| part.len() as u32);
        for number in lengths.into_iter().chain([self.delay, call.marking]) {
            input.write_all(&number.to_le_bytes())?;
        }
        parts.iter().try_for_each(|part| input.write_all(part))
    }

    fn receive(&self, output: &mut impl Read) -> io::Result<Answer> {
        let Head {
            report,
            damage,
            nanoseconds,
        } = head(output)?;
        let call = &self.call;
        let lengths = [self.memory.len(), call.requests.len(), call.state.len()];
        let [mut memory, mut requests, mut state] = lengths.map(|length| vec![0; length]);
        for part in [&mut memory, &mut requests, &mut state] {
            output.read_exact(part)?;
        }
        let left = call::Left {
            report,
            damage,
            requests,
            state,
        };
        let left = Left { left, memory };
        Ok(Answer { left, nanoseconds })
    }
}
