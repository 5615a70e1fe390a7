//! A vector before it is run.

use crate::background::Background;
use crate::code::Code;
use crate::operands::Operands;
use crate::setting::Setting;

/// What a vector's name claims; the check holds the engine's results to it.
#[derive(Clone, Copy, PartialEq, Eq)]
pub enum Claim {
    /// The last attempt executes a word.
    Executed,
    /// The first attempt waits, a later one executes the word.
    Waits,
    /// All attempts wait or fetch nothing, and the state stays.
    Still,
    /// The attempt is a RESET.
    Reset,
    /// The run is refused with this number.
    Refused(u32),
    /// The word is executed and leaves registers and flags as they were.
    Failed,
    /// The word is executed and LC goes to its address.
    Taken,
    /// The word is executed and LC does not go to its address.
    NotTaken,
    /// The word is executed, LC and TSR are these after, the outputs its own, and all else stays.
    Led {
        /// LC after.
        lc: u16,
        /// TSR after.
        tsr: u8,
    },
}

/// A vector before it is run.
#[derive(Clone)]
pub struct Draft {
    /// Its lasting name within the code.
    pub name: String,
    /// What it shows, one line.
    pub shows: String,
    /// What its name claims.
    pub claim: Claim,
    /// What it starts from.
    pub setting: Setting,
}

impl Draft {
    /// A draft with this claim.
    pub fn new(name: &str, claim: Claim, setting: Setting, shows: impl Into<String>) -> Self {
        Self {
            name: name.to_string(),
            shows: shows.into(),
            claim,
            setting,
        }
    }

    /// A draft whose word is executed.
    pub fn executed(name: &str, setting: Setting, shows: impl Into<String>) -> Self {
        Self::new(name, Claim::Executed, setting, shows)
    }
}

/// The setting of these operands with all else low.
pub fn low(code: &Code, operands: &Operands) -> Setting {
    operands.setting(code, Background::Low)
}

/// The setting of these operands with all else high.
pub fn high(code: &Code, operands: &Operands) -> Setting {
    operands.setting(code, Background::High)
}
