//! The state of all that a vector does not name.

use interpreter::State;

/// All low, or all high with a modification of no bits waiting, at an address. Each register has its
/// own value, so that none is changed or mistaken unseen.
pub fn state(high: bool, lc: u16) -> State {
    let all = if high { 0xFFFF } else { 0 };
    State {
        registers: std::array::from_fn(|at| (0x10 + at as u8) ^ all as u8),
        g: all as u8 & 7,
        flags: all as u8,
        lc,
        rr: all & 0x7FF,
        tr: all,
        m: all,
        tsr: all as u8 & 7,
        ics: high,
        sync: high,
        iack: high,
        internal: all as u8 & 7,
        modification: high.then_some(0),
        outputs: all as u8 & 15,
    }
}
