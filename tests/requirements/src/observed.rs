//! What attempts of the interpreter show of some top bytes.

use compare::describe::WAIT;
use interpreter::decks::Random;
use interpreter::{attempt, q1, Marking, Outcome, Sample, State, STATE_BYTES};
use std::ops::RangeInclusive;

/// Gathered over every low byte and many states.
#[derive(Debug)]
pub struct Observed {
    /// Of each low byte: the refusal, or 0.
    pub refusals: [u8; 256],
    /// Each once, of completed attempts.
    pub microcycles: Vec<u32>,
    /// Those that changed.
    pub flags: u8,
    /// Of each set of Ra, the high byte of its pair and Rb, bits 0, 1 and 2: whether every register that changed is in it.
    pub registers: [bool; 8],
    /// With REPLY and BUSY low, REPLY high, BUSY high, both high.
    pub waits: [bool; 4],
    /// With the same lines.
    pub completes: [bool; 4],
    /// Whether each completed attempt left bits 18-21 of its word in the outputs, and no other changed them.
    pub outputs: bool,
    /// With CP1661B and CP1621B, each b, and Q1 false and true: whether every attempt left SYNC and IACK as they were.
    pub kept: [[[bool; 2]; 16]; 2],
    /// Whether nothing else depends on the marking.
    pub alike: bool,
}

/// For each low byte and each pair of REPLY and BUSY.
const STATES: u64 = 40;

impl Observed {
    pub fn of(codes: RangeInclusive<u8>) -> Self {
        let mut seen = Self {
            refusals: [0; 256],
            microcycles: Vec::new(),
            flags: 0,
            registers: [true; 8],
            waits: [false; 4],
            completes: [false; 4],
            outputs: true,
            kept: [[[true; 2]; 16]; 2],
            alike: true,
        };
        for top in codes {
            let random = &mut Random::new(u64::from(top));
            for low in 0..256 {
                for lines in (0..STATES).flat_map(|_| 0..4) {
                    let user = random.below(16) << 18;
                    seen.attempt(user | u32::from(top) << 8 | low, lines, random);
                }
            }
        }
        seen
    }

    fn attempt(&mut self, word: u32, lines: usize, random: &mut Random) {
        let mut state = state(random);
        let before = state.clone();
        let sample = Sample {
            data: random.telling_word(),
            reply: lines & 1 != 0,
            busy: lines & 2 != 0,
            compute: true,
            ics: random.one_in(2),
            ..Sample::default()
        };
        let mut outputs = before.outputs;
        let outcome = attempt(&[word], &[], &mut state, sample, Marking::Cp1661b);
        let mut other = before.clone();
        let same = attempt(&[word], &[], &mut other, sample, Marking::Cp1621b) == outcome;
        self.bus(word, &before, [&state, &other]);
        (other.sync, other.iack) = (state.sync, state.iack);
        self.alike &= same && other == state;
        match outcome {
            Outcome::Refused(number) => self.refusals[word as usize & 255] = number,
            Outcome::Done { request, .. } if request >> 16 == WAIT => self.waits[lines] = true,
            Outcome::Done { microcycles, .. } => {
                if !self.microcycles.contains(&microcycles) {
                    self.microcycles.push(microcycles);
                }
                self.completes[lines] = true;
                self.flags |= before.flags ^ state.flags;
                self.registers(word, &before, &state);
                outputs = (word >> 18) as u8;
            }
        }
        self.outputs &= state.outputs == outputs;
    }

    /// The states after it are those of the two markings.
    fn bus(&mut self, word: u32, before: &State, after: [&State; 2]) {
        let b = word as usize >> 4 & 15;
        for (kept, after) in self.kept.iter_mut().zip(after) {
            let stays = (after.sync, after.iack) == (before.sync, before.iack);
            kept[b][usize::from(q1(before.tr))] &= stays;
        }
    }

    /// By G before the attempt.
    fn registers(&mut self, word: u32, before: &State, after: &State) {
        let named = [word, word ^ 1, word >> 4].map(|designator| before.place(designator));
        let changed: Vec<usize> = (0..26)
            .filter(|&place| before.registers[place] != after.registers[place])
            .collect();
        for (set, covers) in self.registers.iter_mut().enumerate() {
            let of_set = |place| (0..3).any(|it| set >> it & 1 == 1 && named[it] == place);
            *covers &= changed.iter().all(|&place| of_set(place));
        }
    }
}

/// Any state in range with LC 0 and no modification. TR makes one of Q1's terms true, every other time with one of the bits
/// turned that Q1 reads.
fn state(random: &mut Random) -> State {
    let mut bytes = [0; STATE_BYTES];
    bytes[..26].fill_with(|| random.telling_byte());
    bytes[26] = random.byte() & 7;
    bytes[27] = random.byte();
    let term = random.pick(&[0x2000, 0x0BC0]) | random.bits() as u16 & 0x803F;
    let turned = u16::from(random.one_in(2)) << (6 + random.below(9));
    bytes[32..34].copy_from_slice(&(term ^ turned).to_le_bytes());
    bytes[37] = random.byte() & 7;
    bytes[41] = random.byte() & 15;
    State::from_bytes(&bytes).expect("in range")
}
