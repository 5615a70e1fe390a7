//! IB and IW under both markings: read-modify-write with Q1 false and true, and each bit that Q1 reads.

use super::inputs::option;
use crate::code::{Code, Format};
use crate::draft::Draft;
use crate::operands::Operands;
use interpreter::Marking;

/// TR by option, 4 to 7: with Q1 true, by its first term and by its second; with Q1 false.
const TRUE: [u16; 4] = [0x2000, 0x0BC0, 0xBFFF, 0x8BFF];
const FALSE: [u16; 4] = [0x6000, 0x0B80, 0xFFFF, 0x0000];

/// TR with Q1 false, and the bit that keeps it from being true.
const TURNING: [(u16, u8); 9] = [
    (0x6BC0, 14),
    (0x9FFF, 13),
    (0x1BC0, 12),
    (0x03C0, 11),
    (0x0FC0, 10),
    (0x09C0, 9),
    (0x0AC0, 8),
    (0x0B40, 7),
    (0x0B80, 6),
];

const STAY: &str = "read-modify-write, SYNC and IACK stay";

/// A read-modify-write option, or one that Q1 keeps from being it.
#[derive(Clone, Copy)]
struct Rmw {
    option: u8,
    tr: u16,
    q1: bool,
    marking: Marking,
}

/// Drafts for IB and IW.
pub fn drafts(code: &Code, ordinary: &Operands) -> Vec<Draft> {
    let options = (4..8).flat_map(|at| both(code, ordinary, at));
    let bits = TURNING.iter().map(|&(tr, bit)| {
        let rmw = Rmw {
            option: 4,
            tr,
            q1: false,
            marking: Marking::Cp1621b,
        };
        let shows = format!("Q1 is false by TR{bit} alone; {STAY}");
        rmw.draft(code, ordinary, &format!("cp1621b-tr{bit}"), &shows)
    });
    options.chain(bits).collect()
}

/// An option with Q1 true under both markings and false under CP1621B. `option-N` has it false under CP1661B.
fn both(code: &Code, ordinary: &Operands, option: u8) -> [Draft; 3] {
    let at = usize::from(option - 4);
    let true_but_absent = Rmw {
        option,
        tr: TRUE[at],
        q1: true,
        marking: Marking::Cp1661b,
    };
    let true_there = Rmw {
        marking: Marking::Cp1621b,
        ..true_but_absent
    };
    let false_there = Rmw {
        tr: FALSE[at],
        q1: false,
        ..true_there
    };
    let term = ["first", "second"][at % 2];
    let named = |rmw: Rmw, name: &str, shows: &str| rmw.draft(code, ordinary, name, shows);
    [
        named(
            true_but_absent,
            &format!("option-{option}-q1"),
            &format!("Q1 would be true, but CP1661B does not have it; {STAY}"),
        ),
        named(
            false_there,
            &format!("cp1621b-option-{option}"),
            &format!("Q1 is false; {STAY}"),
        ),
        named(
            true_there,
            &format!("cp1621b-option-{option}-q1"),
            &format!("Q1 is true by its {term} term, SYNC and IACK fall"),
        ),
    ]
}

impl Rmw {
    fn draft(self, code: &Code, ordinary: &Operands, name: &str, shows: &str) -> Draft {
        let mut setting = option(code, &loading(code, ordinary, self.q1), self.option);
        setting.state.tr = self.tr;
        setting.marking = self.marking;
        let shows = format!("Option {}, TR {:04X}: {shows}.", self.option, self.tr);
        Draft::executed(name, setting, shows)
    }
}

/// The operands. The data of IW has the other Q1, so that one that is read from the TR which it loads
/// is seen.
fn loading(code: &Code, ordinary: &Operands, q1: bool) -> Operands {
    match code.format {
        Format::InputWord => Operands {
            a: 2,
            data: Some(if q1 { 0x4763 } else { 0x2763 }),
            ..Operands::default()
        },
        _ => ordinary.clone(),
    }
}
