//! What an attempt starts from and leaves behind.

/// The bytes of a state in a deck, and of the host's state buffer.
pub const STATE_BYTES: usize = 42;

/// Where the register file holds each designator, by G.
const FILE: [[u8; 16]; 8] = file();

const fn file() -> [[u8; 16]; 8] {
    let mut file = [[0; 16]; 8];
    let mut at = 0;
    while at < 128 {
        let (g, designator) = (at / 16, at % 16);
        file[g][designator] = match designator {
            // GC-GF are RC-RF.
            0 | 1 if g >= 6 => 10 + 2 * g + designator,
            0 | 1 => 2 * g + designator,
            _ => 10 + designator,
        } as u8;
        at += 1;
    }
    file
}

/// Where the register file holds the designator in the low four bits, under this G.
#[inline]
pub fn place(designator: u8, g: u8) -> usize {
    usize::from(FILE[usize::from(g & 7)][usize::from(designator & 15)])
}

/// Where the high byte lies of the pair whose low byte is at this place. Its designator is the low
/// one's with the lowest bit inverted; even designators lie at even places, odd ones behind them.
#[inline]
pub(crate) fn high(place: usize) -> usize {
    place ^ 1
}

/// The state, always in range: G, TSR and I4-I6 are 0-7, LC and RR 0-2047, the outputs 0-15.
#[derive(Clone, Debug, PartialEq, Eq)]
pub struct State {
    /// G0-GB, R2-RF.
    pub registers: [u8; 26],
    /// G.
    pub g: u8,
    /// N Z V C NB ZB C4 C8, high to low.
    pub flags: u8,
    /// LC.
    pub lc: u16,
    /// RR.
    pub rr: u16,
    /// TR.
    pub tr: u16,
    /// M.
    pub m: u16,
    /// TSR.
    pub tsr: u8,
    /// ICS.
    pub ics: bool,
    /// SYNC.
    pub sync: bool,
    /// IACK.
    pub iack: bool,
    /// I4-I6 in bits 0-2.
    pub internal: u8,
    /// The waiting modification.
    pub modification: Option<u16>,
    /// The user's outputs: bits 18-21 of the last executed word, in bits 0-3.
    pub outputs: u8,
}

impl State {
    /// The state in a deck's bytes, or nothing when it is out of range.
    pub fn from_bytes(bytes: &[u8; STATE_BYTES]) -> Option<Self> {
        let number = |at: usize| u16::from_le_bytes([bytes[at], bytes[at + 1]]);
        let [marks, modification] = [u16::from(bytes[37]), number(39)];
        let marked = marks & 8 != 0;
        let state = Self {
            registers: std::array::from_fn(|at| bytes[at]),
            g: bytes[26],
            flags: bytes[27],
            lc: number(28),
            rr: number(30),
            tr: number(32),
            m: number(34),
            tsr: bytes[36],
            ics: marks & 1 != 0,
            sync: marks & 2 != 0,
            iack: marks & 4 != 0,
            internal: bytes[38],
            modification: marked.then_some(modification),
            outputs: bytes[41],
        };
        let octal = state.g < 8 && state.tsr < 8 && state.internal < 8;
        let small = octal && marks < 16 && state.outputs < 16;
        let addresses = state.lc < 2048 && state.rr < 2048;
        (small && addresses && (marked || modification == 0)).then_some(state)
    }

    /// The state as a deck holds it.
    pub fn to_bytes(&self) -> [u8; STATE_BYTES] {
        let mut bytes = [0; STATE_BYTES];
        bytes[..26].copy_from_slice(&self.registers);
        bytes[26] = self.g;
        bytes[27] = self.flags;
        let numbers = [self.lc, self.rr, self.tr, self.m];
        for (place, number) in bytes[28..36].chunks_exact_mut(2).zip(numbers) {
            place.copy_from_slice(&number.to_le_bytes());
        }
        bytes[36] = self.tsr;
        bytes[37] = u8::from(self.ics)
            | u8::from(self.sync) << 1
            | u8::from(self.iack) << 2
            | u8::from(self.modification.is_some()) << 3;
        bytes[38] = self.internal;
        bytes[39..41].copy_from_slice(&self.modification.unwrap_or(0).to_le_bytes());
        bytes[41] = self.outputs;
        bytes
    }

    /// Where the register file holds the designator in the low four bits.
    #[inline]
    pub fn place(&self, designator: u32) -> usize {
        place(designator as u8, self.g)
    }

    /// The pair whose low byte is at this place.
    #[inline]
    pub(crate) fn pair(&self, place: usize) -> u16 {
        u16::from_le_bytes([self.registers[place], self.registers[high(place)]])
    }

    /// Writes the pair whose low byte is at this place.
    #[inline]
    pub(crate) fn set_pair(&mut self, place: usize, value: u16) {
        [self.registers[place], self.registers[high(place)]] = value.to_le_bytes();
    }

    /// Sets the flags in the mask and keeps the others.
    #[inline]
    pub(crate) fn set_flags(&mut self, flags: u8, mask: u8) {
        self.flags = self.flags & !mask | flags & mask;
    }
}
