//! The vectors of a code besides those that its flags choose, family by family.

mod address;
mod bits;
mod branches;
mod controls;
mod halves;
mod inputs;
mod interrupts;
mod jumps;
mod markings;
mod pairs;
mod refused;
mod registers;
mod rows;
mod shifts;

use crate::choose::{choose, Chosen};
use crate::code::{Code, Format};
use crate::draft::Draft;

/// All drafts of a code.
pub fn drafts(code: &Code) -> Vec<Draft> {
    match code.format {
        Format::Jump => jumps::jump(code),
        Format::Return => jumps::returning(code),
        Format::Branch => branches::drafts(code),
        Format::Control => controlling(code),
        Format::Nothing => bits::nothing(code),
        Format::Refused => refused::drafts(code),
        _ => choose(code).map_or(Vec::new(), |chosen| with_operands(code, chosen)),
    }
}

/// Those of RI, SI, CCF, RTSR, LGL.
fn controlling(code: &Code) -> Vec<Draft> {
    match code.mnemonic {
        "RI" | "SI" => interrupts::drafts(code),
        "CCF" => controls::copying(code),
        "RTSR" => controls::clearing(code),
        _ => controls::loading_g(code),
    }
}

/// Those of a code with operands.
fn with_operands(code: &Code, chosen: Chosen) -> Vec<Draft> {
    let ordinary = &chosen.ordinary;
    let mut drafts = chosen.drafts;
    drafts.extend(registers::input(code, ordinary));
    drafts.extend(match code.format {
        Format::Literal => registers::literals(code, ordinary),
        Format::Single => controls::single(code, ordinary),
        Format::InputByte | Format::InputWord => inputs::drafts(code, ordinary),
        Format::Address => address::drafts(code, ordinary),
        _ => Vec::new(),
    });
    let halves = halves::drafts(code, &drafts);
    drafts.extend(halves);
    drafts.extend(shifts::drafts(code, ordinary));
    drafts.push(registers::through_g(code, ordinary));
    drafts.extend(pairs::drafts(code, ordinary));
    drafts
}
