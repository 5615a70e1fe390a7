//! Translation rows.

/// A translation row, packed so that one comparison decides whether it matches.
///
/// Mask and value hold LC in bits 0-10, RNI in 11, the TR byte in 12-19, TSR bits 1-0 in 20-21
/// and I0-I6 in 22-28.
#[derive(Clone, Copy, Debug, PartialEq, Eq)]
pub struct Row {
    mask: u32,
    value: u32,
    outputs: Outputs,
}

/// What rows give: address in bits 0-10, LTA, LRA, LTSR in 16-18, new TSR in 24-26.
#[derive(Clone, Copy, Debug, PartialEq, Eq)]
pub(crate) struct Outputs(u32);

impl Row {
    /// The row in a deck's 16 bytes, or nothing when an unused bit is set or a value has a bit
    /// outside its mask.
    pub fn from_bytes(bytes: &[u8; 16]) -> Option<Self> {
        let number = |at: usize| u16::from_le_bytes([bytes[at], bytes[at + 1]]);
        let pack = |lc: u16, at: usize| -> Option<u32> {
            let [rni, tr, tsr, interrupts] =
                [bytes[at], bytes[at + 2], bytes[at + 4], bytes[at + 6]];
            let in_range = lc < 2048 && rni < 2 && tsr < 4 && interrupts < 128;
            in_range.then(|| pack(lc, rni != 0, tr, tsr, interrupts))
        };
        let mask = pack(number(0), 4)?;
        let value = pack(number(2), 5)?;
        let (address, lines, tsr) = (number(12), bytes[14], bytes[15]);
        let in_range = value & !mask == 0 && address < 2048 && lines < 8 && tsr < 8;
        let outputs = u32::from(address) | u32::from(lines) << 16 | u32::from(tsr) << 24;
        in_range.then_some(Self {
            mask,
            value,
            outputs: Outputs(outputs),
        })
    }
}

/// The packed form of what rows are compared with.
#[inline]
pub(crate) fn pack(lc: u16, rni: bool, tr: u8, tsr: u8, interrupts: u8) -> u32 {
    u32::from(lc)
        | u32::from(rni) << 11
        | u32::from(tr) << 12
        | u32::from(tsr & 3) << 20
        | u32::from(interrupts) << 22
}

/// The outputs of all rows that match, ORed output by output.
#[inline]
pub(crate) fn translate(rows: &[Row], key: u32) -> Outputs {
    let matching = rows.iter().filter(|row| key & row.mask == row.value);
    Outputs(matching.fold(0, |outputs, row| outputs | row.outputs.0))
}

impl Outputs {
    /// The address, when LTA asks for it.
    #[inline]
    pub(crate) fn address(self) -> Option<u16> {
        (self.0 & 1 << 16 != 0).then_some(self.0 as u16)
    }

    /// LRA.
    #[inline]
    pub(crate) fn returns(self) -> bool {
        self.0 & 1 << 17 != 0
    }

    /// The new TSR, when LTSR loads it.
    #[inline]
    pub(crate) fn tsr(self) -> Option<u8> {
        (self.0 & 1 << 18 != 0).then_some((self.0 >> 24) as u8)
    }
}
