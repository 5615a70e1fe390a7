//! The lines as one attempt sees them.

/// One sample of the lines.
#[derive(Clone, Copy, Debug, Default, PartialEq, Eq)]
pub struct Sample {
    /// The DAL lines.
    pub data: u16,
    /// REPLY.
    pub reply: bool,
    /// BUSY.
    pub busy: bool,
    /// COMPUTE.
    pub compute: bool,
    /// RESET.
    pub reset: bool,
    /// ICS, taken by IW alone.
    pub ics: bool,
    /// I0-I3 in bits 0-3.
    pub interrupts: u8,
}

impl Sample {
    /// The sample in a deck's four bytes, or nothing when an unused bit is set.
    #[inline]
    pub fn from_bytes(bytes: &[u8; 4]) -> Option<Self> {
        Self::in_range(bytes).then(|| Self::decode(bytes))
    }

    /// The sample as a deck holds it.
    pub fn to_bytes(&self) -> [u8; 4] {
        let lines = [self.reply, self.busy, self.compute, self.reset, self.ics];
        let lines = lines
            .iter()
            .rev()
            .fold(0, |lines, &line| lines << 1 | u8::from(line));
        let [low, high] = self.data.to_le_bytes();
        [low, high, lines, self.interrupts]
    }

    /// No unused bit is set.
    #[inline]
    pub(crate) fn in_range(bytes: &[u8; 4]) -> bool {
        bytes[2] < 32 && bytes[3] < 16
    }

    /// The sample in bytes that were found in range.
    #[inline]
    pub(crate) fn decode(&[low, high, lines, interrupts]: &[u8; 4]) -> Self {
        Self {
            data: u16::from_le_bytes([low, high]),
            reply: lines & 1 != 0,
            busy: lines & 2 != 0,
            compute: lines & 4 != 0,
            reset: lines & 8 != 0,
            ics: lines & 16 != 0,
            interrupts,
        }
    }
}
