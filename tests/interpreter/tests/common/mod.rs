//! Short ways to set up one attempt.
#![allow(dead_code)]

use interpreter::{attempt, run, Marking, Outcome, Report, Row, Sample, State, STATE_BYTES};

/// A state's bytes, all zero.
pub const BLANK: [u8; STATE_BYTES] = [0; STATE_BYTES];

/// All zero.
pub fn blank() -> State {
    State::from_bytes(&BLANK).unwrap()
}

/// All zero but LC and RR.
pub fn at(lc: u16, rr: u16) -> State {
    let mut state = blank();
    (state.lc, state.rr) = (lc, rr);
    state
}

/// All zero but a waiting modification.
pub fn modified(bits: u16) -> State {
    let mut state = blank();
    state.modification = Some(bits);
    state
}

/// All zero but SYNC and IACK.
pub fn in_access() -> State {
    let mut state = blank();
    (state.sync, state.iack) = (true, true);
    state
}

/// COMPUTE alone.
pub fn compute() -> Sample {
    Sample {
        compute: true,
        ..Sample::default()
    }
}

/// COMPUTE and REPLY with this data.
pub fn reply(data: u16) -> Sample {
    Sample {
        data,
        reply: true,
        ..compute()
    }
}

/// Where R2-RF lie in the file.
pub fn r(designator: usize) -> usize {
    designator + 10
}

/// One attempt of this word at the state's LC, the words before it being JMP 0.
pub fn with(word: u32, rows: &[Row], state: &mut State, sample: Sample) -> Outcome {
    let mut words = vec![0; usize::from(state.lc)];
    words.push(word);
    attempt(&words, rows, state, sample, Marking::Cp1661b)
}

/// The same without rows and with COMPUTE alone.
pub fn step(word: u32, state: &mut State) -> Outcome {
    with(word, &[], state, compute())
}

/// An attempt that was done.
pub fn done(kind: u32, value: u32, microcycles: u32) -> Outcome {
    Outcome::Done {
        request: kind * 65_536 + value,
        microcycles,
    }
}

/// R2 and R3 hold a byte each; the word has a 2 and b 3. Gives R2 and the flag byte.
pub fn bytes(word: u32, r2: u8, r3: u8, flags: u8) -> (u8, u8) {
    let mut state = blank();
    state.registers[r(2)] = r2;
    state.registers[r(3)] = r3;
    state.flags = flags;
    assert_eq!(step(word, &mut state), done(0, 0, 1));
    assert_eq!(state.registers[r(3)], r3);
    (state.registers[r(2)], state.flags)
}

/// R3:R2 and R5:R4 hold a word each; the word has a 2 and b 4. Gives R3:R2 and the flag byte.
pub fn words(word: u32, low: u16, high: u16, flags: u8) -> (u16, u8) {
    let mut state = blank();
    state.registers[r(2)..r(4)].copy_from_slice(&low.to_le_bytes());
    state.registers[r(4)..r(6)].copy_from_slice(&high.to_le_bytes());
    state.flags = flags;
    assert_eq!(step(word, &mut state), done(0, 0, 2));
    assert_eq!(state.registers[r(4)..r(6)], high.to_le_bytes());
    let [low, high] = [state.registers[r(2)], state.registers[r(3)]];
    (u16::from_le_bytes([low, high]), state.flags)
}

/// A row's 16 bytes, at first with no mask and no output.
#[derive(Clone, Copy)]
pub struct Fields(pub [u8; 16]);

/// The row that matches always and gives nothing.
pub const ANY: Fields = Fields([0; 16]);

impl Fields {
    fn put(mut self, at: usize, bytes: &[u8]) -> Self {
        self.0[at..at + bytes.len()].copy_from_slice(bytes);
        self
    }

    pub fn lc(self, mask: u16, value: u16) -> Self {
        let masked = self.put(0, &mask.to_le_bytes());
        masked.put(2, &value.to_le_bytes())
    }

    pub fn rni(self, mask: u8, value: u8) -> Self {
        self.put(4, &[mask, value])
    }

    pub fn tr(self, mask: u8, value: u8) -> Self {
        self.put(6, &[mask, value])
    }

    pub fn tsr(self, mask: u8, value: u8) -> Self {
        self.put(8, &[mask, value])
    }

    pub fn interrupts(self, mask: u8, value: u8) -> Self {
        self.put(10, &[mask, value])
    }

    /// Lines (1 LTA, 2 LRA, 4 LTSR), address and new TSR.
    pub fn gives(self, lines: u8, address: u16, tsr: u8) -> Self {
        let addressed = self.put(12, &address.to_le_bytes());
        addressed.put(14, &[lines, tsr])
    }

    pub fn row(self) -> Row {
        Row::from_bytes(&self.0).unwrap()
    }
}

/// A deck's bytes.
pub fn deck(words: &[u32], rows: &[[u8; 16]], state: &[u8], samples: &[[u8; 4]]) -> Vec<u8> {
    let mut deck = Vec::new();
    deck.extend((words.len() as u16).to_le_bytes());
    deck.extend(words.iter().flat_map(|word| word.to_le_bytes()));
    deck.extend((rows.len() as u16).to_le_bytes());
    deck.extend(rows.iter().flatten());
    deck.extend([1, 0]);
    deck.extend(state);
    deck.extend((samples.len() as u16).to_le_bytes());
    deck.extend(samples.iter().flatten());
    deck
}

/// What a run left in buffers that held A5 before it.
pub struct Ran {
    pub report: Report,
    pub requests: Vec<u8>,
    pub state: Vec<u8>,
}

impl Ran {
    /// Answer, attempts, microcycles.
    pub fn numbers(&self) -> [u32; 3] {
        [
            self.report.answer,
            self.report.attempts,
            self.report.microcycles,
        ]
    }

    /// Both buffers are as found.
    pub fn untouched(&self) -> bool {
        self.requests
            .iter()
            .chain(&self.state)
            .all(|&byte| byte == 0xA5)
    }
}

/// Runs a deck with a request buffer of this length.
pub fn ran(deck: &[u8], requests: usize) -> Ran {
    ran_with(deck, requests, STATE_BYTES)
}

/// Runs a deck with buffers of these lengths.
pub fn ran_with(deck: &[u8], requests: usize, state: usize) -> Ran {
    ran_as(deck, requests, state, 1661)
}

/// Runs a deck with buffers of these lengths, under this marking.
pub fn ran_as(deck: &[u8], requests: usize, state: usize, marking: u32) -> Ran {
    let mut requests = vec![0xA5; requests];
    let mut state = vec![0xA5; state];
    let report = run(deck, &mut requests, &mut state, marking);
    Ran {
        report,
        requests,
        state,
    }
}
