//! What the decks showed.

use crate::case::{Case, Step};
use crate::subject::{Made, MOST};
use compare::describe::{DATA_IN, RESET, WAIT};
use interpreter::{q1, Marking};
use std::ops::RangeInclusive;

/// Each thing has to be shown by so many decks.
const LEAST: usize = 200;

/// The answers of a run with a memory.
const ANSWERS: [u32; 12] = [0, 1, 2, 3, 4, 5, 6, 8, 9, 16, 17, 24];

/// Delays that are accepted.
const DELAYS: u32 = 16;

/// Kinds of requests.
const STATUS_OUT: u32 = 8;
const STATUS_IN: u32 = 9;
const COMPUTE_LOW: u32 = 12;

/// Top bytes of inputs and of outputs that wait for REPLY.
const INPUTS: RangeInclusive<u8> = 0xE0..=0xE3;
const OUTPUTS: RangeInclusive<u8> = 0xFC..=0xFD;

/// How many decks showed each thing, in the order of their names.
#[derive(Default)]
pub struct Seen(Vec<usize>);

impl Seen {
    /// Takes in a deck.
    pub fn count(&mut self, case: &Case) {
        let answers = ANSWERS.iter().map(|&answer| answer == case.answer());
        let delays = (0..DELAYS).map(|delay| delay == case.call.delay && case.transfers());
        let decks = OF_DECKS.iter().map(|(_, of)| of(case));
        let any = |of: &OfAttempt| case.steps.iter().any(|step| of(case, step));
        let attempts = OF_ATTEMPTS.iter().map(|(_, of)| any(of));
        if self.0.is_empty() {
            self.0 = vec![0; names().len()];
        }
        let shown = answers.chain(delays).chain(decks).chain(attempts);
        for (count, shown) in self.0.iter_mut().zip(shown) {
            *count += usize::from(shown);
        }
    }

    /// Prints the counts.
    pub fn print(&self) {
        for (name, count) in names().iter().zip(&self.0) {
            println!("{count:>7} {name}");
        }
    }

    /// What too few decks showed.
    pub fn missing(&self) -> Vec<String> {
        let counts = self.0.iter().copied().chain(std::iter::repeat(0));
        let all = names().into_iter().zip(counts);
        let few = all.filter(|(_, count)| *count < LEAST);
        few.map(|(name, count)| format!("only {count} decks {name}"))
            .collect()
    }
}

fn names() -> Vec<String> {
    let answers = ANSWERS.iter().map(|answer| format!("answered {answer}"));
    let delays = (0..DELAYS).map(|delay| format!("with a transfer and delay {delay}"));
    let decks = OF_DECKS.iter().map(|(name, _)| name.to_string());
    let attempts = OF_ATTEMPTS.iter().map(|(name, _)| format!("with {name}"));
    answers.chain(delays).chain(decks).chain(attempts).collect()
}

/// Whether a deck shows something.
type OfDeck = fn(&Case) -> bool;

const OF_DECKS: &[(&str, OfDeck)] = &[
    ("refused for an odd length alone", |case| {
        case.answer() == 16
            && case.length() % 2 == 1
            && case.length() < MOST
            && case.call.delay < DELAYS
    }),
    ("refused for a length over alone", |case| {
        case.answer() == 16
            && case.length() % 2 == 0
            && case.length() > MOST
            && case.call.delay < DELAYS
    }),
    ("refused for a delay over alone", |case| {
        case.answer() == 16 && case.length() % 2 == 0 && case.length() <= MOST
    }),
    ("refused by 9, 24 or 1-4 before 16", |case| {
        let memory = case.length() % 2 == 1 || case.length() > MOST || case.call.delay >= DELAYS;
        memory && matches!(case.answer(), 1..=4 | 9 | 24)
    }),
    ("refused by 5, 6 or 8 with a changed memory", |case| {
        case.changed() && matches!(case.answer(), 5..=8)
    }),
    ("refused by 17 with a changed memory", |case| {
        case.changed() && case.answer() == 17
    }),
    ("refused by 17 after RESET dropped SYNC", |case| {
        case.answer() == 17 && case.steps.last().map_or(false, |step| !step.state.sync)
    }),
    (
        "refused by 17 for an input that a modification made",
        |case| {
            let last = case.steps.last().filter(|_| case.answer() == 17);
            last.map_or(false, |step| case.made(step, INPUTS))
        },
    ),
    (
        "refused by 17 for an output that a modification made",
        |case| {
            let last = case.steps.last().filter(|_| case.answer() == 17);
            last.map_or(false, |step| case.made(step, OUTPUTS))
        },
    ),
    ("of a memory without bytes", |case| {
        !case.steps.is_empty() && case.length() == 0
    }),
    ("with transfers in 2 bytes", |case| {
        case.transfers() && case.length() == 2
    }),
    ("with transfers in 4 to 64 bytes", |case| {
        case.transfers() && matches!(case.length(), 4..=64)
    }),
    ("with transfers in 65,536 bytes", |case| {
        case.transfers() && case.length() == MOST
    }),
    ("with rows and transfers", |case| {
        case.transfers() && case.sections().map_or(false, |own| !own.rows.is_empty())
    }),
    ("damaged, with transfers", |case| {
        case.transfers() && case.subject.made == Made::Damaged
    }),
    ("damaged, without an attempt", |case| {
        case.steps.is_empty() && case.subject.made == Made::Damaged
    }),
    ("of another kind, with transfers", |case| {
        case.transfers() && matches!(case.subject.made, Made::Of(_))
    }),
    ("with an output right after RMW", |case| {
        let pairs = case.steps.windows(2);
        let mut inputs = pairs.filter(|pair| pair[0].kind() == Some(DATA_IN));
        inputs.any(|pair| pair[1].outputs())
    }),
    ("starting with SYNC high and a wait for REPLY", |case| {
        let first = case.steps.first();
        first.map_or(false, |step| step.state.sync && step.unanswered())
    }),
    ("ending after 32 waits beyond the memory", |case| {
        let last = case.steps.last().filter(|_| case.answer() == 0);
        last.map_or(false, |step| {
            step.kept.waits == 31 && step.unanswered() && case.beyond(step)
        })
    }),
    (
        "with 33 waits of an access, the address beyond the memory",
        |case| {
            let own =
                |step: &Step| step.kind() == Some(WAIT) && !step.unanswered() && case.beyond(step);
            case.steps.windows(33).any(|row| row.iter().all(own))
        },
    ),
    ("with an input of a word that was stored", |case| {
        let memory = &case.call.memory;
        let mut inputs = case
            .steps
            .iter()
            .filter(|step| step.kind() == Some(DATA_IN));
        inputs.any(|step| {
            let at = usize::from(step.address());
            step.lines.data.to_le_bytes() != memory[at & !1..][..2]
        })
    }),
];

/// Whether an attempt shows something.
type OfAttempt = fn(&Case, &Step) -> bool;

const OF_ATTEMPTS: &[(&str, OfAttempt)] = &[
    ("an access of the first word", |case, step| {
        step.accessed()
            .map_or(false, |at| at < 2 && at < case.length())
    }),
    ("an access of the last word", |case, step| {
        step.accessed()
            .map_or(false, |at| at + 2 >= case.length() && at < case.length())
    }),
    (
        "an access of the last word of 65,536 bytes",
        |case, step| case.length() == MOST && step.accessed().map_or(false, |at| at + 2 >= MOST),
    ),
    ("an access right behind the memory", |case, step| {
        step.accessed() == Some(case.length())
    }),
    ("an access beyond the memory", |case, step| {
        step.accessed().map_or(false, |at| at > case.length())
    }),
    ("an acknowledge", |_, step| {
        matches!(step.kind(), Some(3 | 4))
    }),
    ("an access that increments", |_, step| {
        step.accessed().is_some() && matches!(step.top(), Some(0xF0..=0xF7))
    }),
    ("a later access in the delay", |_, step| {
        step.accessed().is_some() && step.state.sync && step.kept.low > 0
    }),
    (
        "a later access after one beyond the memory",
        |case, step| step.accessed().is_some() && step.state.sync && case.beyond(step),
    ),
    ("an access that waits for REPLY to fall", |_, step| {
        step.kind() == Some(WAIT) && step.lines.reply && !step.lines.busy
    }),
    ("IB of an even address", |_, step| {
        step.input(0xE0) && step.address() % 2 == 0
    }),
    ("IB of an odd address", |_, step| {
        step.input(0xE0) && step.address() % 2 == 1
    }),
    ("IW of an even address", |_, step| {
        step.input(0xE2) && step.address() % 2 == 0
    }),
    ("IW of an odd address", |_, step| {
        step.input(0xE2) && step.address() % 2 == 1
    }),
    ("IB by M after OS changed it", |_, step| {
        step.input(0xE0) && step.b() & 2 != 0 && (step.state.m ^ step.address()) & 1 == 1
    }),
    ("RMW, CP1661B, Q1 true", |case, step| {
        case.rmw(step, Marking::Cp1661b) && q1(step.state.tr)
    }),
    ("RMW, CP1661B, Q1 false", |case, step| {
        case.rmw(step, Marking::Cp1661b) && !q1(step.state.tr)
    }),
    ("RMW, CP1621B, Q1 true", |case, step| {
        case.rmw(step, Marking::Cp1621b) && q1(step.state.tr)
    }),
    ("RMW, CP1621B, Q1 false", |case, step| {
        case.rmw(step, Marking::Cp1621b) && !q1(step.state.tr)
    }),
    ("a status input while REPLY is high", |_, step| {
        step.kind() == Some(STATUS_IN) && step.lines.reply
    }),
    ("a status output in an access", |_, step| {
        step.kind() == Some(STATUS_OUT) && step.state.sync && step.kept.address.is_some()
    }),
    ("an input that a modification made", |case, step| {
        step.kind() == Some(DATA_IN) && case.made(step, INPUTS)
    }),
    ("an output that a modification made", |case, step| {
        step.outputs() && case.made(step, OUTPUTS)
    }),
    (
        "a wait of an input that a modification made",
        |case, step| step.unanswered() && case.made(step, INPUTS),
    ),
    (
        "a wait of an output that a modification made",
        |case, step| step.unanswered() && case.made(step, OUTPUTS),
    ),
    ("OB to an even address", |_, step| {
        step.kind() == Some(7) && step.address() % 2 == 0
    }),
    ("OB to an odd address", |_, step| {
        step.kind() == Some(7) && step.address() % 2 == 1
    }),
    ("OW to an even address", |_, step| {
        step.kind() == Some(6) && step.address() % 2 == 0
    }),
    ("OW to an odd address", |_, step| {
        step.kind() == Some(6) && step.address() % 2 == 1
    }),
    ("a wait in the delay", |_, step| step.delayed(WAIT)),
    ("an attempt completed in the delay", |_, step| {
        step.delayed(0)
    }),
    ("RESET in the delay", |_, step| step.delayed(RESET)),
    ("COMPUTE low in the delay", |_, step| {
        step.delayed(COMPUTE_LOW)
    }),
    ("external REPLY high and the memory's low", |_, step| {
        step.external.reply && step.unanswered()
    }),
    ("external REPLY low and the memory's high", |_, step| {
        !step.external.reply && step.transfers()
    }),
    (
        "COMPUTE low after 32 waits beyond the memory",
        |case, step| step.kept.waits == 32 && case.beyond(step) && step.kind() == Some(COMPUTE_LOW),
    ),
    ("RESET after 32 waits beyond the memory", |case, step| {
        step.kept.waits == 32 && case.beyond(step) && step.kind() == Some(RESET)
    }),
    (
        "a broken row of 8 to 31 waits beyond the memory",
        |case, step| matches!(step.kept.waits, 8..=31) && case.beyond(step) && !step.unanswered(),
    ),
    ("34 waits in a row and no address", |_, step| {
        step.kept.waits == 33 && step.kept.address.is_none() && step.unanswered()
    }),
    (
        "34 waits in a row and the address in the memory",
        |case, step| {
            step.kept.waits == 33
                && step.kept.address.is_some()
                && !case.beyond(step)
                && step.unanswered()
        },
    ),
];
