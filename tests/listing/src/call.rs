//! One call of a compiled function and what it leaves behind.

use crate::rules::{Refusal, Rules};
use compare::driver::{long_number, number, Asked};
use std::fmt;
use std::io::{self, Read, Write};

/// The compiled functions, by the driver's numbers.
#[derive(Clone, Copy, Debug, PartialEq, Eq)]
pub enum Function {
    Assemble = 0,
    List = 1,
}

/// Input and output as they are before.
#[derive(Clone)]
pub struct Call {
    pub function: Function,
    pub input: Vec<u8>,
    pub output: Vec<u8>,
}

/// The report, and the output as it is after.
#[derive(Clone, PartialEq, Eq)]
pub struct Left {
    pub answer: u32,
    pub at: u32,
    pub length: u32,
    /// What was touched that may not be, by the driver's bits; 0 when nothing was.
    pub damage: u32,
    pub output: Vec<u8>,
}

impl Call {
    /// What these rules make of it.
    pub fn by(&self, rules: &Rules) -> Left {
        self.leaving(match self.function {
            Function::Assemble => rules.assemble(&self.input),
            Function::List => rules.list(&self.input),
        })
    }

    /// What a result leaves behind: all of it in the output, or nothing.
    pub fn leaving(&self, result: Result<Vec<u8>, Refusal>) -> Left {
        let mut left = Left {
            answer: 0,
            at: 0,
            length: 0,
            damage: 0,
            output: self.output.clone(),
        };
        match result {
            Err(refusal) => {
                left.answer = refusal.answer;
                left.at = refusal.at;
            }
            Ok(bytes) => {
                left.length = bytes.len() as u32;
                match left.output.get_mut(..bytes.len()) {
                    Some(room) => room.copy_from_slice(&bytes),
                    None => left.answer = 27,
                }
            }
        }
        left
    }
}

impl Asked for Call {
    type Answer = (Left, u64);

    fn send(&self, input: &mut impl Write) -> io::Result<()> {
        let numbers = [self.function as usize, self.input.len(), self.output.len()];
        for number in numbers {
            input.write_all(&(number as u32).to_le_bytes())?;
        }
        input.write_all(&self.input)?;
        input.write_all(&self.output)
    }

    /// What was left, and the nanoseconds that it took.
    fn receive(&self, output: &mut impl Read) -> io::Result<(Left, u64)> {
        let mut left = Left {
            answer: number(output)?,
            at: number(output)?,
            length: number(output)?,
            damage: number(output)?,
            output: vec![0; self.output.len()],
        };
        let nanoseconds = long_number(output)?;
        output.read_exact(&mut left.output)?;
        Ok((left, nanoseconds))
    }
}

impl fmt::Display for Call {
    fn fmt(&self, to: &mut fmt::Formatter<'_>) -> fmt::Result {
        let input = shown(self.function == Function::Assemble, &self.input);
        write!(
            to,
            "{:?} of {input}, room {}",
            self.function,
            self.output.len()
        )
    }
}

impl Call {
    /// What was left, shown.
    pub fn left(&self, left: &Left) -> String {
        let Left {
            answer,
            at,
            length,
            damage,
            output,
        } = left;
        let end = if *answer == 0 { *length as usize } else { 0 };
        let (written, past) = output.split_at(end.min(output.len()));
        let changed = if past == &self.output[output.len() - past.len()..] {
            "as found"
        } else {
            "CHANGED"
        };
        let written = shown(self.function == Function::List, written);
        format!(
            "answer {answer} at {at} length {length} damage {damage}, {written}, past it {changed}"
        )
    }
}

/// Bytes as text or as words, the first of them.
fn shown(text: bool, bytes: &[u8]) -> String {
    let first = &bytes[..bytes.len().min(400)];
    if text {
        let first: String = first
            .iter()
            .map(|byte| byte.escape_ascii().to_string())
            .collect();
        return format!("\"{first}\" ({} bytes)", bytes.len());
    }
    let words = first.chunks(4).map(|word| {
        word.iter()
            .rev()
            .map(|byte| format!("{byte:02X}"))
            .collect()
    });
    format!(
        "[{}] ({} bytes)",
        words.collect::<Vec<String>>().join(" "),
        bytes.len()
    )
}
