//! The control chip's marking, and Q1, which one of the two has.

/// The marking that is printed on the control chip.
#[derive(Clone, Copy, Debug, PartialEq, Eq)]
pub enum Marking {
    /// 1661, the base: no Q1.
    Cp1661b,
    /// 1621: RMW happens only if Q1 is false.
    Cp1621b,
}

impl Marking {
    /// The marking of this number, if there is one.
    pub fn from_number(number: u32) -> Option<Self> {
        match number {
            1661 => Some(Self::Cp1661b),
            1621 => Some(Self::Cp1621b),
            _ => None,
        }
    }

    /// The number by which a run names it.
    pub fn number(self) -> u32 {
        match self {
            Self::Cp1661b => 1661,
            Self::Cp1621b => 1621,
        }
    }

    /// Whether RMW happens with this TR before the instruction.
    #[inline]
    pub(crate) fn keeps_bus(self, tr: u16) -> bool {
        self == Self::Cp1661b || !q1(tr)
    }
}

/// Q1 of this TR.
#[inline]
pub fn q1(tr: u16) -> bool {
    let bit = |at: u32| tr >> at & 1 == 1;
    let first = !bit(14) && bit(13);
    let opened = !bit(14) && !bit(12) && bit(11) && !bit(10);
    first || opened && bit(9) && bit(8) && bit(7) && bit(6)
}
