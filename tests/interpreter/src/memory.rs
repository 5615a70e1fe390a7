//! A memory on the bus, 02's L7: the lines that it gives to each attempt, and what it stores.

use crate::attempt::{taken, Outcome};
use crate::code::{Wait, CODES};
use crate::deck::{opened, Deck, Report};
use crate::sample::Sample;
use crate::state::State;

/// The kind of a wait.
const WAIT: u32 = 10;

/// The memory that a run is lent.
pub struct Lent<'a> {
    /// Its bytes, the low byte of a word at the even address.
    pub bytes: &'a mut [u8],
    /// So many attempts after an access see REPLY low.
    pub delay: u32,
}

/// What the memory keeps between attempts, besides its bytes.
#[derive(Clone, Copy, Debug, Default, PartialEq, Eq)]
pub struct Kept {
    /// The address of the last access, if there was one.
    pub address: Option<u16>,
    /// How many attempts are still to see REPLY low.
    pub low: u32,
    /// How many IB, IW, OB and OW waits have come in a row.
    pub waits: u32,
}

/// An attempt that was made.
pub struct Watched<'a> {
    /// What was kept before it.
    pub kept: Kept,
    /// The state before it.
    pub state: State,
    /// The word at LC, its modification ORed in.
    pub word: Option<u32>,
    /// The deck's sample.
    pub external: Sample,
    /// What it saw.
    pub lines: Sample,
    /// What came of it.
    pub outcome: Outcome,
    /// The memory's bytes after it.
    pub bytes: &'a [u8],
}

/// A byte to be stored, and its address.
pub type Stored = Option<(usize, u8)>;

/// The rules of the memory, one by one, so that each can be made wrong alone.
#[derive(Clone, Copy)]
pub struct Rules {
    /// Whether a length and a delay are accepted, else 16.
    pub accepts: fn(usize, u32) -> bool,
    /// The lines that an attempt sees, but for REPLY and what IB and IW see.
    pub lines: fn(Sample) -> Sample,
    /// What is kept before the first attempt.
    pub start: fn(&State) -> Kept,
    /// The place in the memory of so many bytes that an attempt accesses, beyond it or not.
    pub place: fn(Kept, &State, usize) -> Option<usize>,
    /// REPLY, by what is kept, SYNC, the sample and whether the place is in the memory.
    pub reply: fn(Kept, bool, Sample, bool) -> bool,
    /// Whether a top byte sees the memory's word and not the external data.
    pub sees: fn(u8) -> bool,
    /// The word at a place.
    pub word: fn(&[u8], usize) -> u16,
    /// What a request of this kind and value stores at a place.
    pub stores: fn(u32, u16, usize) -> [Stored; 2],
    /// Whether a request of this kind is an access, whose value is kept as the address.
    pub access: fn(u32) -> bool,
    /// How many attempts see REPLY low after an access, by what is kept before it and the delay.
    pub begins: fn(Kept, u32) -> u32,
    /// How many do after any other attempt, by how many did before it and its kind.
    pub goes_on: fn(u32, u32) -> u32,
    /// How many waits are in a row after an attempt of this kind and code, by how many were before it.
    pub row: fn(u32, u32, u8) -> u32,
    /// Whether one more wait is refused, by what is kept, the address's place and the length.
    pub refuses: fn(Kept, Option<usize>, usize) -> bool,
    /// The address that is kept after an attempt that is no access, by its kind.
    pub keeps: fn(Option<u16>, u32) -> Option<u16>,
    /// The memory after a refusal, which the number tells, by the starting bytes.
    pub after: fn(u32, &mut [u8], &[u8]),
}

/// The rules as they are.
pub const RULES: Rules = Rules {
    accepts: |length, delay| length % 2 == 0 && length <= 65_536 && delay <= 15,
    lines: |external| external,
    // Whatever SYNC is.
    start: |_| Kept {
        address: None,
        low: 0,
        waits: 0,
    },
    place: |kept, _, _| kept.address.map(usize::from),
    reply: |kept, sync, _, inside| sync && inside && kept.low == 0,
    // IB and IW.
    sees: |top| matches!(top, 0xE0..=0xE3),
    word: |bytes, place| u16::from_le_bytes([bytes[place & !1], bytes[place | 1]]),
    stores: |kind, value, place| {
        let [lower, upper] = value.to_le_bytes();
        match kind {
            6 => [Some((place & !1, lower)), Some((place | 1, upper))],
            7 if place % 2 == 0 => [Some((place, lower)), None],
            7 => [Some((place, upper)), None],
            _ => [None, None],
        }
    },
    // R, W, RA, WA and F0-F7.
    access: |kind| matches!(kind, 1..=4),
    begins: |_, delay| delay,
    goes_on: |low, _| low.saturating_sub(1),
    row: |waits, kind, top| {
        let counted = kind == WAIT && CODES[usize::from(top)].wait == Wait::Unanswered;
        if counted {
            waits + 1
        } else {
            0
        }
    },
    refuses: |kept, place, length| kept.waits == 32 && place.map_or(false, |place| place >= length),
    keeps: |address, _| address,
    after: |_, _, _| {},
};

/// Runs a deck with a memory on the bus: as [`run`](crate::run), but that REPLY and what IB and IW
/// see is the memory's. The samples are the external lines.
///
/// After 9, 24, 1-4 and 16 the memory is as found, else as the completed attempts left it.
pub fn run_with_memory(
    deck: &[u8],
    memory: Lent<'_>,
    requests: &mut [u8],
    state: &mut [u8],
    marking: u32,
) -> Report {
    watch(&RULES, deck, memory, requests, state, marking, |_| {})
}

/// The same under any rules, each attempt watched.
pub fn watch(
    rules: &Rules,
    deck: &[u8],
    memory: Lent<'_>,
    requests: &mut [u8],
    state: &mut [u8],
    marking: u32,
    mut watch: impl FnMut(Watched<'_>),
) -> Report {
    let starting = memory.bytes.to_vec();
    let report = match opened(deck, requests, state, marking) {
        Err(answer) => Report::refused(answer),
        Ok(_) if !(rules.accepts)(memory.bytes.len(), memory.delay) => Report::refused(16),
        Ok((mut deck, returned)) => {
            let kept = (rules.start)(&deck.state);
            let mut bus = Bus {
                rules,
                bytes: memory.bytes,
                delay: memory.delay,
                kept,
            };
            deck.attempts(requests, returned, |deck, sample| {
                bus.attempt(deck, sample, &mut watch)
            })
        }
    };
    (rules.after)(report.answer, memory.bytes, &starting);
    report
}

/// The memory in a run.
struct Bus<'a> {
    rules: &'a Rules,
    bytes: &'a mut [u8],
    delay: u32,
    kept: Kept,
}

impl Bus<'_> {
    /// One attempt with these external lines.
    fn attempt(
        &mut self,
        deck: &mut Deck<'_>,
        external: Sample,
        watch: &mut impl FnMut(Watched<'_>),
    ) -> Outcome {
        let (kept, state) = (self.kept, deck.state.clone());
        let word = taken(&deck.words, &state);
        let place = (self.rules.place)(kept, &state, self.bytes.len());
        let top = word.map_or(0, |word| (word >> 8) as u8);
        let lines = self.lines(external, state.sync, place, top);
        let outcome = match deck.attempt(lines) {
            Outcome::Done { request, .. } if self.refuses(request >> 16, top, place) => {
                // A wait has changed nothing.
                Outcome::Refused(17)
            }
            outcome => outcome,
        };
        if let Outcome::Done { request, .. } = outcome {
            self.take(request >> 16, request as u16, top, place);
        }
        watch(Watched {
            kept,
            state,
            word,
            external,
            lines,
            outcome,
            bytes: self.bytes,
        });
        outcome
    }

    /// Whether 17 comes in the place of an attempt of this kind and code.
    fn refuses(&self, kind: u32, top: u8, place: Option<usize>) -> bool {
        let counted = kind == WAIT && (self.rules.row)(0, kind, top) > 0;
        counted && (self.rules.refuses)(self.kept, place, self.bytes.len())
    }

    /// The external lines, but for REPLY and what IB and IW see.
    fn lines(&self, external: Sample, sync: bool, place: Option<usize>, top: u8) -> Sample {
        let inside = place.filter(|&place| place < self.bytes.len());
        let reply = (self.rules.reply)(self.kept, sync, external, inside.is_some());
        let data = match inside {
            Some(place) if reply && (self.rules.sees)(top) => (self.rules.word)(self.bytes, place),
            _ => external.data,
        };
        Sample {
            reply,
            data,
            ..(self.rules.lines)(external)
        }
    }

    /// Takes in what an attempt requested: outputs are stored, an access is kept.
    fn take(&mut self, kind: u32, value: u16, top: u8, place: Option<usize>) {
        self.kept.waits = (self.rules.row)(self.kept.waits, kind, top);
        let stored = place.map_or([None, None], |place| {
            (self.rules.stores)(kind, value, place)
        });
        for (place, byte) in stored.into_iter().flatten() {
            // By the rules REPLY was high, so the place is in the memory.
            if let Some(own) = self.bytes.get_mut(place) {
                *own = byte;
            }
        }
        if (self.rules.access)(kind) {
            self.kept.low = (self.rules.begins)(self.kept, self.delay);
            self.kept.address = Some(value);
        } else {
            self.kept.low = (self.rules.goes_on)(self.kept.low, kind);
            self.kept.address = (self.rules.keeps)(self.kept.address, kind);
        }
    }
}
