//! Whether the vectors of a code do what their names say, by the engine's results.

use crate::choose::Reach;
use crate::code::{Code, Format};
use crate::draft::Claim;
use crate::setting::loaded;
use crate::vector::Vector;
use crate::{demands, told};
use compare::describe::{RESET, WAIT};
use compare::flags;
use interpreter::State;

/// What is wrong with a vector, if anything.
pub fn vector(code: &Code, vector: &Vector) -> Option<String> {
    let setting = &vector.draft.setting;
    let mut words = setting.words.iter();
    if !code.has(setting.word()) && !words.any(|&word| code.has(word)) {
        return Some("has no word of its code".to_string());
    }
    match (holds(vector), outputs(vector)) {
        (Some(true), Some(true)) => None,
        (Some(true), _) => Some("does not tell of the outputs".to_string()),
        (Some(false), _) => Some("does not do what its name says".to_string()),
        (None, _) => Some("has no state".to_string()),
    }
}

/// Whether the outputs are those of the last executed word, or as before where none was; and
/// whether a word that was tried after it, and not executed, would have loaded others. No word but
/// the last leads elsewhere than to the next.
fn outputs(vector: &Vector) -> Option<bool> {
    let (setting, after) = (&vector.draft.setting, vector.after()?.outputs);
    let requests = vector.requests();
    let executed = requests.iter().filter(|&own| own >> 16 < WAIT).count();
    let word = |step: usize| setting.words.get(usize::from(setting.state.lc) + step);
    let last = match executed {
        0 => setting.state.outputs,
        _ => loaded(*word(executed - 1)?),
    };
    let tried = executed == 0 || vector.left.report.answer != 0;
    let told = !tried || loaded(*word(executed)?) != after;
    Some(after == last && told)
}

/// Whether a vector's claim holds.
fn holds(vector: &Vector) -> Option<bool> {
    let (draft, report) = (&vector.draft, vector.left.report);
    let (before, after) = (&draft.setting.state, vector.after()?);
    let kinds: Vec<u32> = vector.requests().iter().map(|own| own >> 16).collect();
    let idle = |kind: &u32| *kind >= WAIT;
    let executed = report.answer == 0 && kinds.last().map_or(false, |kind| !idle(kind));
    let word = draft.setting.word() as u16;
    let target = match word >> 12 {
        0 => word & 0x7FF,
        _ => before.lc & 0x700 | word & 0xFF,
    };
    Some(match draft.claim {
        Claim::Executed => executed,
        Claim::Waits => executed && kinds.first() == Some(&WAIT),
        Claim::Still => report.answer == 0 && kinds.iter().all(idle) && *before == after,
        Claim::Reset => report.answer == 0 && kinds == [RESET],
        Claim::Refused(answer) => {
            report.answer == answer && (*before == after || !kinds.is_empty())
        }
        Claim::Failed => {
            executed && before.registers == after.registers && before.flags == after.flags
        }
        Claim::Taken => executed && after.lc == target,
        Claim::NotTaken => executed && after.lc != target,
        Claim::Led { lc, tsr } => {
            let led = State {
                lc,
                tsr,
                outputs: loaded(draft.setting.word()),
                ..before.clone()
            };
            executed && after == led
        }
    })
}

/// The checks of a code's vectors together, each with what is wrong, if anything.
pub fn together(code: &Code, vectors: &[Vector], reach: &Reach) -> Vec<Option<String>> {
    let executes = |own: &&Vector| {
        let claim = own.draft.claim;
        matches!(claim, Claim::Executed | Claim::Taken | Claim::Led { .. })
    };
    let executed: Vec<&Vector> = vectors.iter().filter(executes).collect();
    let none = code.format != Format::Refused && executed.is_empty();
    let mut checks = vec![
        twice(vectors),
        none.then(|| "no vector is executed".to_string()),
        unseen(&executed, reach),
        stuck(&executed),
        not_opposite(vectors, reach),
    ];
    let demands = demands::all(code);
    checks.extend(demands.iter().map(|demand| demand.unmet(vectors)));
    if code.format == Format::Nothing {
        checks.extend(told::missing(vectors));
    }
    checks
}

/// A name, or a deck under the same marking, that is there twice.
fn twice(vectors: &[Vector]) -> Option<String> {
    let names: Vec<&str> = vectors.iter().map(|own| own.draft.name.as_str()).collect();
    let calls = vectors.iter().map(|own| own.draft.setting.call());
    let decks: Vec<(Vec<u8>, u32)> = calls.map(|call| (call.deck, call.marking)).collect();
    let again = (1..vectors.len())
        .find(|&at| names[..at].contains(&names[at]) || decks[..at].contains(&decks[at]))?;
    Some(format!("{} is there before", names[again]))
}

/// Flags that can come out both ways and are not seen so.
fn unseen(executed: &[&Vector], reach: &Reach) -> Option<String> {
    let after = executed.iter().filter_map(|own| own.after());
    let after: Vec<u8> = after.map(|state| state.flags).collect();
    let ones = after.iter().fold(0, |ones, flags| ones | flags);
    let zeros = after.iter().fold(0, |zeros, flags| zeros | !flags);
    let (never_1, never_0) = (reach.ones & !ones, reach.zeros & !zeros);
    (never_1 | never_0 != 0).then(|| {
        let (never_1, never_0) = (flags::names(never_1), flags::names(never_0));
        format!("never 1: {never_1}; never 0: {never_0}")
    })
}

/// Whether each of the outputs goes up and goes down, where any word is executed.
fn stuck(executed: &[&Vector]) -> Option<String> {
    let before = |own: &Vector| own.draft.setting.state.outputs;
    let pairs = executed
        .iter()
        .filter_map(|own| Some((before(own), own.after()?.outputs)));
    let (up, down) = pairs.fold((0, 0), |(up, down), (before, after)| {
        (up | after & !before, down | before & !after)
    });
    let whole = executed.is_empty() || (up, down) == (15, 15);
    (!whole).then(|| "not every output goes up and down".to_string())
}

/// Whether `other` has flags the other way: of those that are set as many as any operands tried
/// turn away from `ordinary`; the others stay high.
fn not_opposite(vectors: &[Vector], reach: &Reach) -> Option<String> {
    let named = |name: &str| vectors.iter().find(|own| own.draft.name == name);
    let (ordinary, other) = (named("ordinary")?, named("other")?);
    let [one, two] = [ordinary.after()?.flags, other.after()?.flags];
    let before = [ordinary, other].map(|own| own.draft.setting.state.flags);
    let settable = reach.ones & reach.zeros;
    if settable != 0 && (one ^ two) & settable == 0 {
        return Some("`other` has no flag the other way".to_string());
    }
    let turned = |after: u8| ((one ^ after) & reach.sets).count_ones();
    if reach.highs.iter().any(|&after| turned(after) > turned(two)) {
        return Some("`other` has fewer flags the other way than it could".to_string());
    }
    let kept = (before[0] ^ before[1]) & !reach.sets;
    ((one ^ two) & kept != kept).then(|| "`other` does not keep a flag".to_string())
}
