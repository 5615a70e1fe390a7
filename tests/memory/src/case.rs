//! A deck with what the interpreter leaves behind of it and the attempts on the way.

use crate::subject::Subject;
use compare::call::{self, Call};
use compare::deck::Sections;
use compare::describe::{DATA_IN, WAIT};
use compare::memory::{Left, WithMemory};
use interpreter::decks::Random;
use interpreter::{Kept, Marking, Outcome, Report, Sample, State, RULES};
use std::ops::RangeInclusive;

/// One attempt, as it was before.
pub struct Step {
    pub kept: Kept,
    pub state: State,
    /// The word, its modification ORed in.
    pub word: Option<u32>,
    pub external: Sample,
    /// What it saw.
    pub lines: Sample,
    pub outcome: Outcome,
}

impl Step {
    /// The request, of an attempt that is not refused.
    fn request(&self) -> Option<u32> {
        match self.outcome {
            Outcome::Done { request, .. } => Some(request),
            Outcome::Refused(_) => None,
        }
    }

    fn microcycles(&self) -> u32 {
        match self.outcome {
            Outcome::Done { microcycles, .. } => microcycles,
            Outcome::Refused(_) => 0,
        }
    }

    /// The kind of its request.
    pub fn kind(&self) -> Option<u32> {
        self.request().map(|request| request >> 16)
    }

    /// The address of an access that is accepted.
    pub fn accessed(&self) -> Option<usize> {
        let request = self.request()?;
        matches!(request >> 16, 1..=4).then_some(usize::from(request as u16))
    }

    /// The address that is kept, or 0.
    pub fn address(&self) -> u16 {
        self.kept.address.unwrap_or(0)
    }

    /// The top byte of the word.
    pub fn top(&self) -> Option<u8> {
        self.word.map(|word| (word >> 8) as u8)
    }

    /// The word's b.
    pub fn b(&self) -> u32 {
        self.word.unwrap_or(0) >> 4 & 15
    }

    /// An input of this code or its odd one is completed.
    pub fn input(&self, code: u8) -> bool {
        self.kind() == Some(DATA_IN) && self.top().map(|top| top & !1) == Some(code)
    }

    /// An output is completed.
    pub fn outputs(&self) -> bool {
        matches!(self.kind(), Some(6 | 7))
    }

    /// An input or an output is completed.
    pub fn transfers(&self) -> bool {
        self.outputs() || self.kind() == Some(DATA_IN)
    }

    /// It waits for REPLY.
    pub fn unanswered(&self) -> bool {
        self.kind() == Some(WAIT) && matches!(self.top(), Some(0xE0..=0xE3 | 0xFC | 0xFD))
    }

    /// A request of this kind in the delay of an access.
    pub fn delayed(&self, kind: u32) -> bool {
        self.kind() == Some(kind) && self.kept.low > 0 && self.state.sync
    }
}

/// A deck.
pub struct Case {
    pub subject: Subject,
    pub call: WithMemory,
    /// What the interpreter leaves behind.
    pub left: Left,
    pub steps: Vec<Step>,
    /// The samples of a part, and the memory after as many attempts, when there were so many.
    cut: usize,
    at_cut: Vec<u8>,
}

impl Case {
    /// The deck of this seed.
    pub fn new(seed: u64) -> Self {
        let subject = Subject::new(seed);
        let call = subject.call();
        let samples = Sections::of(&call.call.deck).map_or(0, |own| own.samples.len() / 4);
        let cut = Random::new(seed.rotate_left(16)).below(samples as u32 + 1) as usize;
        let (mut steps, mut at_cut) = (Vec::new(), call.memory.clone());
        let left = call.watched(&RULES, |watched| {
            steps.push(Step {
                kept: watched.kept,
                state: watched.state,
                word: watched.word,
                external: watched.external,
                lines: watched.lines,
                outcome: watched.outcome,
            });
            if steps.len() == cut {
                at_cut.copy_from_slice(watched.bytes);
            }
        });
        Self {
            subject,
            call,
            left,
            steps,
            cut,
            at_cut,
        }
    }

    pub fn answer(&self) -> u32 {
        self.left.left.report.answer
    }

    /// The bytes of the memory.
    pub fn length(&self) -> usize {
        self.call.memory.len()
    }

    pub fn sections(&self) -> Option<Sections<'_>> {
        Sections::of(&self.call.call.deck)
    }

    /// An input or an output is completed.
    pub fn transfers(&self) -> bool {
        self.steps.iter().any(Step::transfers)
    }

    /// The memory is another than before.
    pub fn changed(&self) -> bool {
        self.left.memory != self.call.memory
    }

    /// An address is kept, and beyond the memory.
    pub fn beyond(&self, step: &Step) -> bool {
        let address = step.kept.address.map(usize::from);
        address.map_or(false, |address| address >= self.length())
    }

    /// A modification made one of these top bytes of another that is none.
    pub fn made(&self, step: &Step, tops: RangeInclusive<u8>) -> bool {
        let stored = self.sections().and_then(|own| own.word(step.state.lc));
        let has = |top: Option<u8>| top.map_or(false, |top| tops.contains(&top));
        has(step.top()) && !has(stored.map(|word| (word >> 8) as u8))
    }

    /// A read-modify-write input is completed, of a chip of this marking.
    pub fn rmw(&self, step: &Step, marking: Marking) -> bool {
        let own = self.call.call.marking == marking.number();
        own && step.kind() == Some(DATA_IN) && step.b() & 4 != 0
    }

    /// The run without a memory whose samples are the lines that the attempts saw; nothing for 16 and
    /// 17, which such a run never answers.
    pub fn without_memory(&self) -> Option<Call> {
        let lines = self.steps.iter().map(|step| step.lines);
        let answers = !matches!(self.answer(), 16 | 17);
        answers.then(|| self.call.without(lines))
    }

    /// The run over the first samples, and what it leaves behind: the beginning of the whole run.
    /// Nothing for a deck that is refused as a whole.
    pub fn part(&self) -> Option<(WithMemory, Left)> {
        let report = self.left.left.report;
        let sections = self.sections()?;
        if !matches!(report.answer, 0 | 5..=8 | 17) {
            return None;
        }
        let samples = &sections.samples[..4 * self.cut];
        let mut call = self.call.clone();
        call.call.deck = Sections {
            samples,
            ..sections
        }
        .deck();
        let whole = self.cut > report.attempts as usize;
        let left = if whole {
            self.left.clone()
        } else {
            self.beginning()
        };
        Some((call, left))
    }

    /// What as many attempts as the part has samples leave behind, none of them refused.
    fn beginning(&self) -> Left {
        let mut requests = self.call.call.requests.clone();
        let written = 4 * self.cut;
        requests[..written].copy_from_slice(&self.left.left.requests[..written]);
        let next = self.steps.get(self.cut);
        let state = next.map_or(self.left.left.state.clone(), |step| {
            step.state.to_bytes().into()
        });
        let report = Report {
            answer: 0,
            attempts: self.cut as u32,
            microcycles: self.steps[..self.cut].iter().map(Step::microcycles).sum(),
        };
        let left = call::Left {
            report,
            damage: 0,
            requests,
            state,
        };
        let memory = self.at_cut.clone();
        Left { left, memory }
    }
}
