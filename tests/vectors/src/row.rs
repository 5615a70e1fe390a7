//! A translation row.

/// A part that a row can ask for.
#[derive(Clone, Copy, PartialEq, Eq)]
pub enum Part {
    /// LC.
    Lc,
    /// Bit 17.
    Rni,
    /// The byte of TR that TSR bit 2 selects.
    Tr,
    /// TSR bits 1-0.
    Tsr,
    /// I0-I6.
    Interrupts,
}

impl Part {
    /// All of them, in the order of a row's bytes.
    pub const ALL: [Part; 5] = [Part::Lc, Part::Rni, Part::Tr, Part::Tsr, Part::Interrupts];

    /// The mask of all its bits.
    pub fn whole(self) -> u16 {
        match self {
            Part::Lc => 0x7FF,
            Part::Rni => 1,
            Part::Tr => 0xFF,
            Part::Tsr => 3,
            Part::Interrupts => 0x7F,
        }
    }
}

/// What a row asks of a part: of its bits, those of the mask count.
#[derive(Clone, Copy, Default)]
pub struct Asked {
    /// The mask.
    pub mask: u16,
    /// The value under it.
    pub value: u16,
}

/// The lines that a row can raise: LTA.
pub const LTA: u8 = 1;
/// LRA.
pub const LRA: u8 = 2;
/// LTSR.
pub const LTSR: u8 = 4;

/// A translation row.
#[derive(Clone, Copy, Default)]
pub struct Row {
    asked: [Asked; 5],
    /// The address, which counts when a matching row raises LTA.
    pub address: u16,
    /// The lines raised.
    pub lines: u8,
    /// The new TSR, which counts when a matching row raises LTSR.
    pub new_tsr: u8,
}

impl Row {
    /// A row for the word at this LC, which asks for nothing else and gives nothing.
    pub fn at(lc: u16) -> Self {
        Self::default().asking(Part::Lc, Part::Lc.whole(), lc)
    }

    /// What it asks of a part.
    pub fn asked(&self, part: Part) -> Asked {
        self.asked[part as usize]
    }

    /// The row that asks this of a part.
    pub fn asking(mut self, part: Part, mask: u16, value: u16) -> Self {
        self.asked[part as usize] = Asked { mask, value };
        self
    }

    /// The row that raises LTA with this address.
    pub fn lta(self, address: u16) -> Self {
        self.giving(address, self.new_tsr).raising(LTA)
    }

    /// The row that raises LRA.
    pub fn lra(self) -> Self {
        self.raising(LRA)
    }

    /// The row that raises LTSR with this new TSR.
    pub fn ltsr(self, new_tsr: u8) -> Self {
        self.giving(self.address, new_tsr).raising(LTSR)
    }

    /// The row with this address and new TSR, and no line raised for them.
    pub fn giving(self, address: u16, new_tsr: u8) -> Self {
        Self {
            address,
            new_tsr,
            ..self
        }
    }

    fn raising(self, line: u8) -> Self {
        let lines = self.lines | line;
        Self { lines, ..self }
    }

    /// The row's 16 bytes.
    pub fn bytes(&self) -> [u8; 16] {
        let mut bytes = [0; 16];
        let lc = self.asked(Part::Lc);
        bytes[..2].copy_from_slice(&lc.mask.to_le_bytes());
        bytes[2..4].copy_from_slice(&lc.value.to_le_bytes());
        // The other parts have a byte for the mask and one for the value.
        for (at, asked) in (4..).step_by(2).zip(&self.asked[1..]) {
            bytes[at] = asked.mask as u8;
            bytes[at + 1] = asked.value as u8;
        }
        bytes[12..14].copy_from_slice(&self.address.to_le_bytes());
        bytes[14] = self.lines;
        bytes[15] = self.new_tsr;
        bytes
    }
}
