//! What the cases showed.

use compare::call::{Call, Left};
use compare::deck::Sections;
use compare::describe::{DATA_IN, KINDS, WAIT};
use compare::difference::word;
use compare::listing::{self, Waits};
use interpreter::{place, q1, Marking, State};

/// The numbers on the refusal slip; 7 no longer occurs.
const ANSWERS: [usize; 10] = [0, 1, 2, 3, 4, 5, 6, 8, 9, 24];

/// Listed instructions, CAD among them.
const LISTED: usize = 150;

/// Counts over the cases in which engine and interpreter agree.
pub struct Seen {
    /// Cases in which they agree.
    pub passed: usize,
    /// Attempts of these cases.
    attempts: u64,
    answers: [u64; 25],
    kinds: [u64; 13],
    /// Single attempts by the top byte of the word taken: all, completed ones, waits, completed ones
    /// with crosswise pairs.
    seen: [u64; 256],
    completed: [u64; 256],
    waited: [u64; 256],
    crosswise: [u64; 256],
    /// Single RMW inputs that are completed and find SYNC high, by marking, CP1661B first, and Q1.
    rmw: [[u64; 2]; 2],
}

impl Seen {
    /// Nothing yet.
    pub fn new() -> Self {
        Self {
            passed: 0,
            attempts: 0,
            answers: [0; 25],
            kinds: [0; 13],
            seen: [0; 256],
            completed: [0; 256],
            waited: [0; 256],
            crosswise: [0; 256],
            rmw: [[0; 2]; 2],
        }
    }

    /// Takes in a case in which they agree.
    pub fn count(&mut self, call: &Call, left: &Left) {
        self.passed += 1;
        self.attempts += u64::from(left.report.attempts);
        self.answers[left.report.answer as usize] += 1;
        let places = 0..left.report.attempts as usize;
        for request in places.filter_map(|place| left.request(place)) {
            self.kinds[request as usize >> 16] += 1;
        }
        if let Some((marked, q1)) = rmw(call, left) {
            self.rmw[usize::from(marked)][usize::from(q1)] += 1;
        }
        if let Some((top, crosswise)) = single(call, left) {
            self.seen[top] += 1;
            match (
                left.report.answer,
                left.request(0).map(|request| request >> 16),
            ) {
                (0, Some(WAIT)) => self.waited[top] += 1,
                (0, _) => {
                    self.completed[top] += 1;
                    self.crosswise[top] += u64::from(crosswise);
                }
                _ => {}
            }
        }
    }

    /// Prints the counts.
    pub fn print(&self) {
        println!("attempts: {}", self.attempts);
        let answers: Vec<String> = ANSWERS
            .map(|at| format!("{at}: {}", self.answers[at]))
            .to_vec();
        println!("answers: {}", answers.join(", "));
        let kinds = KINDS.iter().zip(self.kinds);
        let kinds: Vec<String> = kinds
            .map(|(kind, count)| format!("{kind} {count}"))
            .collect();
        println!("requests: {}", kinds.join(", "));
        let least = listing::keys()
            .into_iter()
            .filter(|key| key != listing::LEFT_OUT);
        let least = least.map(|key| (self.of(&self.completed, &key), key)).min();
        if let Some((count, key)) = least {
            println!("completed least often in single attempts: {key}, {count} times");
        }
        let pairs: u64 = self.crosswise.iter().sum();
        println!("crosswise pairs in single attempts: {pairs}");
        let [[low, high], [marked_low, marked_high]] = self.rmw;
        println!("RMW with SYNC in single attempts: CP1661B {low} with Q1 false, {high} true; CP1621B {marked_low}, {marked_high}");
    }

    /// What the cases were to show and did not.
    pub fn missing(&self) -> Vec<String> {
        let answers = ANSWERS.into_iter().filter(|&at| self.answers[at] == 0);
        let answers = answers.map(|at| format!("answer {at} never came"));
        let kinds = (0..13).filter(|&at| self.kinds[at] == 0);
        let kinds = kinds.map(|at| format!("no {} request", KINDS[at]));
        let waits = (0..=255).filter(|&top| listing::waits(top) != Waits::Never);
        let waits = waits.filter(|&top| self.waited[usize::from(top)] == 0);
        let waits = waits.map(|top| format!("{top:02X} never waited"));
        let pairs = (0..=255).filter(|&top| listing::pairs(top));
        let pairs = pairs.filter(|&top| self.crosswise[usize::from(top)] == 0);
        let pairs = pairs.map(|top| format!("{top:02X} never had crosswise pairs"));
        let rmw = self.rmw.iter().flatten().any(|&count| count == 0);
        let rmw = rmw.then(|| "RMW not under both markings with both Q1".to_string());
        let listed = listing::keys();
        let count = (listed.len() != LISTED).then(|| format!("{} are listed", listed.len()));
        let listed = listed.iter().filter_map(|key| self.lacking(key));
        let instructions = waits.chain(pairs).chain(listed).chain(count);
        answers
            .chain(kinds)
            .chain(instructions)
            .chain(rmw)
            .collect()
    }

    /// What the single attempts lack of an instruction.
    fn lacking(&self, key: &str) -> Option<String> {
        match (self.of(&self.seen, key), self.of(&self.completed, key)) {
            (0, _) => Some(format!("{key} never seen")),
            (_, 0) if key != listing::LEFT_OUT => Some(format!("{key} never completed")),
            _ => None,
        }
    }

    /// The count of an instruction, over all its top bytes.
    fn of(&self, counts: &[u64; 256], key: &str) -> u64 {
        let tops = (0..=255).filter(|&top| listing::key(top).map_or(false, |own| own == key));
        tops.map(|top| counts[usize::from(top)]).sum()
    }
}

/// The top byte of the word that the only attempt of a call takes, when it takes one, and whether
/// its pairs are crosswise: Ra is Rb's high byte.
fn single(call: &Call, left: &Left) -> Option<(usize, bool)> {
    let sections = Sections::of(&call.deck)?;
    let lines = match sections.samples {
        [_, _, lines, _] => lines,
        _ => return None,
    };
    // COMPUTE high and RESET low.
    let takes = lines >> 2 & 3 == 1 && matches!(left.report.answer, 0 | 6 | 8);
    let word = word(&sections, sections.state)?;
    let (top, g) = ((word >> 8) as u8, sections.state[26]);
    let across = place(word as u8, g) == place((word >> 4) as u8 ^ 1, g);
    takes.then(|| (usize::from(top), across && listing::pairs(top)))
}

/// Of a single RMW input that is completed and finds SYNC high: whether the marking is CP1621B, and Q1.
fn rmw(call: &Call, left: &Left) -> Option<(bool, bool)> {
    let sections = Sections::of(&call.deck).filter(|own| own.samples.len() == 4)?;
    let state = State::from_bytes(sections.state.try_into().ok()?)?;
    let rmw = word(&sections, sections.state)? & 0x40 != 0;
    let data_in = left.report.attempts == 1 && left.request(0)? >> 16 == DATA_IN;
    let marked = call.marking == Marking::Cp1621b.number();
    (rmw && data_in && state.sync).then(|| (marked, q1(state.tr)))
}
