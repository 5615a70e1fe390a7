//! The operands of `ordinary`, `edge` and `other`, chosen by what candidates come to.

use crate::background::Background;
use crate::code::Code;
use crate::draft::{high, low, Draft};
use crate::operands::{borders, middling, Operands};
use crate::shows;
use compare::flags::{self, V};

/// What was chosen for a code.
pub struct Chosen {
    /// The operands of `ordinary`.
    pub ordinary: Operands,
    /// `ordinary`, `edge`, `other`, and one for each flag that these don't show both ways.
    pub drafts: Vec<Draft>,
}

/// What is known of a code's flags.
#[derive(Clone, Default)]
pub struct Reach {
    /// Those that it sets.
    pub sets: u8,
    /// Those of them that can come out 0.
    pub zeros: u8,
    /// Those of them that can come out 1.
    pub ones: u8,
    /// The flags after each candidate that was tried with all high before.
    pub highs: Vec<u8>,
}

/// A candidate that was tried.
struct Trial {
    operands: Operands,
    background: Background,
    before: u8,
    after: u8,
}

impl Trial {
    /// Whether all was high before.
    fn high(&self) -> bool {
        self.background == Background::High
    }
}

/// What the code reads: only 1 where it is a condition.
fn inputs(code: &Code) -> Vec<bool> {
    match code.reads() {
        Some(_) if !code.conditional() => vec![true, false],
        _ => vec![true],
    }
}

/// Everything that is tried.
fn candidates(code: &Code) -> Vec<Operands> {
    let both = |&input: &bool| [middling(code, input), borders(code, input)].concat();
    inputs(code).iter().flat_map(both).collect()
}

fn tried(code: &Code, all: Vec<Operands>, background: Background) -> Vec<Trial> {
    let trial = |operands: Operands| {
        let setting = operands.setting(code, background);
        Trial {
            operands,
            background,
            before: setting.state.flags,
            after: setting.interpreted().state[27],
        }
    };
    all.into_iter().map(trial).collect()
}

/// What candidates show of a code's flags.
fn reach(trials: &[Trial]) -> Reach {
    let changed = trials.iter().map(|trial| trial.before ^ trial.after);
    let sets = changed.fold(0, |sets, changed| sets | changed);
    let ones = trials.iter().fold(0, |ones, trial| ones | trial.after);
    let zeros = trials.iter().fold(0, |zeros, trial| zeros | !trial.after);
    let highs = trials.iter().filter(|trial| trial.high());
    Reach {
        sets,
        zeros: zeros & sets,
        ones: ones & sets,
        highs: highs.map(|trial| trial.after).collect(),
    }
}

/// What a code can do to flags.
pub fn reached(code: &Code) -> Reach {
    reach(&all_tried(code))
}

fn all_tried(code: &Code) -> Vec<Trial> {
    let mut all = tried(code, candidates(code), Background::High);
    all.extend(tried(code, candidates(code), Background::Low));
    all
}

/// The first of those that are best.
fn best<T, K: Ord>(all: impl Iterator<Item = T>, key: impl Fn(&T) -> K) -> Option<T> {
    all.fold(None, |best, item| match best {
        Some(best) if key(&best) >= key(&item) => Some(best),
        _ => Some(item),
    })
}

/// Chooses for a code with operands.
pub fn choose(code: &Code) -> Option<Chosen> {
    let trials = all_tried(code);
    let sets = reach(&trials).sets;
    let plain = middling(code, code.conditional());
    let plain = tried(code, plain, Background::Low);
    let (ordinary, other) = opposites(&plain, &trials, sets)?;
    let edge = edge(code, other, sets)?;
    let shown = [ordinary.after, edge.after, other.after];
    let mut drafts = vec![
        Draft::executed(
            "ordinary",
            low(code, &ordinary.operands),
            shows::ordinary(code, &ordinary.operands),
        ),
        Draft::executed(
            "edge",
            low(code, &edge.operands).at(0x7FF),
            shows::edge(code, &edge.operands),
        ),
        Draft::executed(
            "other",
            high(code, &other.operands),
            shows::other(code, &other.operands, [ordinary.after, other.after], sets),
        ),
    ];
    drafts.extend(missing(code, &trials, &shown));
    Some(Chosen {
        ordinary: ordinary.operands.clone(),
        drafts,
    })
}

/// A plain candidate and one with all high before, with as many flags as can opposite.
fn opposites<'a>(plain: &'a [Trial], all: &'a [Trial], sets: u8) -> Option<(&'a Trial, &'a Trial)> {
    let high = |trial: &&Trial| trial.high();
    let pairs = plain
        .iter()
        .flat_map(|one| all.iter().filter(high).map(move |two| (one, two)));
    best(pairs, |(one, two)| {
        let opposite = ((one.after ^ two.after) & sets).count_ones();
        // Overflow is not ordinary where the flags leave the choice.
        let calm = one.after & V == 0;
        (opposite, calm, one.operands.distance(&two.operands))
    })
}

/// The border that overflows, if one does, and comes out most unlike `other`.
fn edge(code: &Code, other: &Trial, sets: u8) -> Option<Trial> {
    let mut all = Vec::new();
    // Low first, as all flags are.
    for &input in inputs(code).iter().rev() {
        all.extend(borders(code, input));
    }
    all.retain(|operands| operands.distance(&other.operands) > 0);
    let trials = tried(code, all, Background::Low);
    best(trials.into_iter(), |trial| {
        let after = trial.after & sets;
        let unlike = ((trial.after ^ other.after) & sets).count_ones();
        (after & V, unlike, after.count_ones())
    })
}

/// Drafts for flags that come out 0 or 1 in some candidate and in none of those shown.
fn missing(code: &Code, trials: &[Trial], shown: &[u8]) -> Vec<Draft> {
    let reach = reach(trials);
    let mut shown = shown.to_vec();
    let mut drafts = Vec::new();
    for (can, high) in [(reach.zeros, false), (reach.ones, true)] {
        for bit in flags::each(can) {
            let shows = |after: u8| (after & bit != 0) == high;
            if shown.iter().any(|&after| shows(after)) {
                continue;
            }
            let showing = trials.iter().filter(|trial| shows(trial.after));
            // Best where the flag was not so before.
            if let Some(trial) = best(showing, |trial| (trial.before ^ trial.after) & bit) {
                shown.push(trial.after);
                drafts.push(flag_draft(code, trial, bit, high));
            }
        }
    }
    drafts
}

fn flag_draft(code: &Code, trial: &Trial, bit: u8, high: bool) -> Draft {
    let (flag, operands) = (flags::name(bit), shows::written(code, &trial.operands));
    let (way, value) = if high { ("high", 1) } else { ("low", 0) };
    Draft::executed(
        &format!("{}-{way}", flag.to_lowercase()),
        trial.operands.setting(code, trial.background),
        format!("{operands}: {flag} comes out {value}, as in none of the above."),
    )
}
