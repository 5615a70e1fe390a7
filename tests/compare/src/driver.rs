//! A driver: compiled code in a process of its own, which answers calls one after the other.

use std::io::{self, BufReader, BufWriter, Read, Write};
use std::process::{Command, Stdio};
use std::thread;

/// The driver: a program and its arguments, an emulator perhaps first.
pub struct Driver(Vec<String>);

/// A call as a driver takes it.
pub trait Asked: Sync {
    /// What the driver says of it.
    type Answer;

    /// Writes the call.
    fn send(&self, input: &mut impl Write) -> io::Result<()>;

    /// Reads its answer.
    fn receive(&self, output: &mut impl Read) -> io::Result<Self::Answer>;
}

impl Driver {
    /// The driver behind this command, which is not empty.
    pub fn new(command: Vec<String>) -> Self {
        Self(command)
    }

    /// Runs the calls in one process. When that dies, answers are missing from the call that killed
    /// it on. An interrupt from the terminal does not reach it, which has a session of its own: an
    /// emulator may lose an answer by one.
    pub fn run<C: Asked>(&self, calls: &[C]) -> io::Result<Vec<C::Answer>> {
        let mut child = Command::new("setsid")
            .args(&self.0)
            .stdin(Stdio::piped())
            .stdout(Stdio::piped())
            .spawn()?;
        let input = child.stdin.take();
        let output = child.stdout.take();
        let mut answers = thread::scope(|scope| {
            // A pipe that breaks shows as missing answers.
            scope.spawn(move || input.map(|input| send(calls, input)));
            output.map_or(Vec::new(), |output| receive(calls, output))
        });
        let status = child.wait()?;
        if !status.success() {
            eprintln!("driver: {status}");
            // Nor is the last answer of a driver that ends badly any good.
            answers.truncate(calls.len().saturating_sub(1));
        }
        Ok(answers)
    }

    /// Runs all calls, and hands each to `judge` with its answer. A call that kills the driver has none,
    /// and those behind it are made anew.
    pub fn judge<C: Asked>(
        &self,
        calls: &[C],
        mut judge: impl FnMut(usize, Option<&C::Answer>),
    ) -> io::Result<()> {
        let mut done = 0;
        while done < calls.len() {
            let answers = self.run(&calls[done..])?;
            let answers = answers.iter().map(Some).chain([None]);
            for answer in answers.take(calls.len() - done) {
                judge(done, answer);
                done += 1;
            }
        }
        Ok(())
    }
}

fn send<C: Asked>(calls: &[C], input: impl Write) -> io::Result<()> {
    let mut input = BufWriter::with_capacity(1 << 16, input);
    for call in calls {
        call.send(&mut input)?;
    }
    input.flush()
}

fn receive<C: Asked>(calls: &[C], output: impl Read) -> Vec<C::Answer> {
    let mut output = BufReader::with_capacity(1 << 16, output);
    let answers = calls
        .iter()
        .map_while(|call| call.receive(&mut output).ok());
    answers.collect()
}

/// The next four bytes, low byte first.
pub fn number(output: &mut impl Read) -> io::Result<u32> {
    let mut bytes = [0; 4];
    output.read_exact(&mut bytes)?;
    Ok(u32::from_le_bytes(bytes))
}

/// The next eight.
pub fn long_number(output: &mut impl Read) -> io::Result<u64> {
    let mut bytes = [0; 8];
    output.read_exact(&mut bytes)?;
    Ok(u64::from_le_bytes(bytes))
}
