//! The lines that an attempt is to have in the trace.

use super::text::{Came, Line};
use compare::lines;
use interpreter::Outcome;

/// The requests by their kinds.
const KINDS: [&str; 13] = [
    "none",
    "read",
    "write",
    "read acknowledge",
    "write acknowledge",
    "data in",
    "word out",
    "byte out",
    "status out",
    "status in",
    "wait",
    "RESET",
    "COMPUTE low",
];

/// An attempt's own line.
pub fn line(number: usize, word: String, outcome: Outcome) -> Line {
    let (outcome, came) = match outcome {
        Outcome::Done {
            request,
            microcycles,
        } => {
            let (kind, value) = (request >> 16, request & 0xFFFF);
            let outcome = match kind {
                10 => "waited",
                11 => "RESET",
                12 => "COMPUTE low",
                _ => "completed",
            };
            let value = match (kind, value) {
                (0 | 10..=12, 0) => String::new(),
                _ => format!("{value:04X}"),
            };
            let kind = KINDS[kind as usize].to_string();
            (outcome, Came::Done(microcycles, kind, value))
        }
        Outcome::Refused(answer) => ("refused", Came::Refused(refusal(answer))),
    };
    Line {
        number,
        word,
        outcome: outcome.to_string(),
        came,
    }
}

/// A refusal's number and text.
fn refusal(answer: u8) -> String {
    let text = match answer {
        5 => "LC has no word",
        6 => "code unlisted, or AC",
        _ => "option not listed",
    };
    format!("{answer}: {text}")
}

/// A sample's data, and the lines that are high.
pub fn sample(bytes: &[u8]) -> String {
    let names = lines::names(bytes[2]).into_iter().map(String::from);
    let interrupts = (0..4).filter(|at| bytes[3] >> at & 1 == 1);
    let names = names.chain(interrupts.map(|at| format!("I{at}")));
    let high: Vec<String> = names.collect();
    let high = match high.is_empty() {
        true => "-".to_string(),
        false => high.join(" "),
    };
    format!("{:02X}{:02X} {high}", bytes[1], bytes[0])
}
