//! Slips that look right. The decks have to tell each, or they would not tell it of the engine.

use interpreter::{Kept, Rules, Sample, RULES};

/// A memory that is wrong in one way.
pub struct Slip {
    pub name: &'static str,
    pub rules: Rules,
}

/// The kinds of a wait, of RESET and of COMPUTE low.
const WAIT: u32 = 10;
const RESET: u32 = 11;
const COMPUTE_LOW: u32 = 12;

/// All of them.
pub fn all() -> Vec<Slip> {
    let slips = [BYTES, LINES, REPLIES, DELAYS, ADDRESSES, ROWS, REFUSALS].concat();
    let slips = slips.into_iter();
    slips.map(|(name, rules)| Slip { name, rules }).collect()
}

/// Wrong rules, by what is wrong with them.
type Named = &'static [(&'static str, Rules)];

/// What is seen and stored.
const BYTES: Named = &[
    (
        "a byte output swaps even and odd",
        Rules {
            stores: |kind, value, place| match kind {
                7 => (RULES.stores)(kind, value.swap_bytes(), place),
                _ => (RULES.stores)(kind, value, place),
            },
            ..RULES
        },
    ),
    (
        "OW stores one byte",
        Rules {
            stores: |kind, value, place| {
                (RULES.stores)(if kind == 6 { 7 } else { kind }, value, place)
            },
            ..RULES
        },
    ),
    (
        "OW stores at an odd address and behind it",
        Rules {
            stores: |kind, value, place| match (kind, value.to_le_bytes()) {
                (6, [lower, upper]) => [Some((place, lower)), Some((place + 1, upper))],
                _ => (RULES.stores)(kind, value, place),
            },
            ..RULES
        },
    ),
    (
        "OS stores",
        Rules {
            stores: |kind, value, place| {
                (RULES.stores)(if kind == 8 { 6 } else { kind }, value, place)
            },
            ..RULES
        },
    ),
    (
        "IB and IW see the external data",
        Rules {
            sees: |_| false,
            ..RULES
        },
    ),
    (
        "IB sees the external data",
        Rules {
            sees: |top| matches!(top, 0xE2 | 0xE3),
            ..RULES
        },
    ),
    (
        "ISB and ISW see the memory",
        Rules {
            sees: |top| matches!(top, 0xE0..=0xE7),
            ..RULES
        },
    ),
    (
        "an input sees the word from an odd address on",
        Rules {
            word: |bytes, place| {
                u16::from_le_bytes([bytes[place], bytes[(place + 1) % bytes.len()]])
            },
            ..RULES
        },
    ),
    (
        "the high byte is at the even address",
        Rules {
            word: |bytes, place| (RULES.word)(bytes, place).swap_bytes(),
            ..RULES
        },
    ),
];

/// External lines.
const LINES: Named = &[
    (
        "BUSY of the external lines is not seen",
        Rules {
            lines: |external| Sample {
                busy: false,
                ..external
            },
            ..RULES
        },
    ),
    (
        "ICS of the external lines is not seen",
        Rules {
            lines: |external| Sample {
                ics: false,
                ..external
            },
            ..RULES
        },
    ),
];

const REPLIES: Named = &[
    (
        "REPLY stays after SYNC fell",
        Rules {
            reply: |kept, _, _, inside| inside && kept.low == 0,
            ..RULES
        },
    ),
    (
        "external REPLY is used too",
        Rules {
            reply: |kept, sync, external, inside| {
                (RULES.reply)(kept, sync, external, inside) || external.reply
            },
            ..RULES
        },
    ),
    (
        "REPLY is low while BUSY is high",
        Rules {
            reply: |kept, sync, external, inside| {
                (RULES.reply)(kept, sync, external, inside) && !external.busy
            },
            ..RULES
        },
    ),
];

const DELAYS: Named = &[
    (
        "REPLY an attempt early",
        Rules {
            begins: |_, delay| delay.saturating_sub(1),
            ..RULES
        },
    ),
    (
        "REPLY an attempt late",
        Rules {
            begins: |_, delay| delay + 1,
            ..RULES
        },
    ),
    (
        "a later access does not begin the delay anew",
        Rules {
            begins: |kept, delay| match kept.address {
                Some(_) => kept.low.saturating_sub(1),
                None => delay,
            },
            ..RULES
        },
    ),
    (
        "the delay is counted by waits alone",
        Rules {
            goes_on: |low, kind| low.saturating_sub(u32::from(kind == WAIT)),
            ..RULES
        },
    ),
    (
        "COMPUTE low stops the delay",
        Rules {
            goes_on: |low, kind| low.saturating_sub(u32::from(kind != COMPUTE_LOW)),
            ..RULES
        },
    ),
];

const ADDRESSES: Named = &[
    (
        "the address is M",
        Rules {
            place: |kept, state, _| kept.address.map(|_| state.m.into()),
            ..RULES
        },
    ),
    (
        "an address beyond the memory goes round",
        Rules {
            place: |kept, _, length| kept.address.map(|own| usize::from(own) % length.max(1)),
            ..RULES
        },
    ),
    (
        "acknowledges keep no address",
        Rules {
            access: |kind| matches!(kind, 1 | 2),
            ..RULES
        },
    ),
    (
        "writes keep no address",
        Rules {
            access: |kind| matches!(kind, 1 | 3),
            ..RULES
        },
    ),
    (
        "RESET forgets the address",
        Rules {
            keeps: |address, kind| address.filter(|_| kind != RESET),
            ..RULES
        },
    ),
    (
        "with SYNC high a run starts with M for its address",
        Rules {
            start: |state| Kept {
                address: state.sync.then_some(state.m),
                ..Kept::default()
            },
            ..RULES
        },
    ),
];

/// Rows of waits.
const ROWS: Named = &[
    (
        "waits of R and W are counted",
        Rules {
            row: |waits, kind, _| if kind == WAIT { waits + 1 } else { 0 },
            ..RULES
        },
    ),
    (
        "COMPUTE low does not break the row",
        Rules {
            row: |waits, kind, top| match kind {
                COMPUTE_LOW => waits,
                _ => (RULES.row)(waits, kind, top),
            },
            ..RULES
        },
    ),
    (
        "RESET does not break the row",
        Rules {
            row: |waits, kind, top| match kind {
                RESET => waits,
                _ => (RULES.row)(waits, kind, top),
            },
            ..RULES
        },
    ),
    (
        "a completed attempt does not break the row",
        Rules {
            row: |waits, kind, top| match kind {
                0..=9 => waits,
                _ => (RULES.row)(waits, kind, top),
            },
            ..RULES
        },
    ),
    (
        "waits of OB and OW are not counted",
        Rules {
            row: |waits, kind, top| match top {
                0xFC | 0xFD => 0,
                _ => (RULES.row)(waits, kind, top),
            },
            ..RULES
        },
    ),
    (
        "17 at the 32nd wait",
        Rules {
            refuses: |kept, place, length| {
                kept.waits == 31 && place.map_or(false, |own| own >= length)
            },
            ..RULES
        },
    ),
    (
        "17 at the 34th wait",
        Rules {
            refuses: |kept, place, length| {
                kept.waits == 33 && place.map_or(false, |own| own >= length)
            },
            ..RULES
        },
    ),
    (
        "17 with the address in the memory",
        Rules {
            refuses: |kept, place, _| kept.waits == 32 && place.is_some(),
            ..RULES
        },
    ),
    (
        "17 without an address",
        Rules {
            refuses: |kept, place, length| {
                kept.waits == 32 && place.map_or(true, |own| own >= length)
            },
            ..RULES
        },
    ),
    (
        "no 17",
        Rules {
            refuses: |_, _, _| false,
            ..RULES
        },
    ),
];

const REFUSALS: Named = &[
    (
        "16 for a length of 65,536",
        Rules {
            accepts: |length, delay| (RULES.accepts)(length, delay) && length < 65_536,
            ..RULES
        },
    ),
    (
        "16 for a length of 0",
        Rules {
            accepts: |length, delay| (RULES.accepts)(length, delay) && length > 0,
            ..RULES
        },
    ),
    (
        "16 for a delay of 15",
        Rules {
            accepts: |length, delay| (RULES.accepts)(length, delay) && delay < 15,
            ..RULES
        },
    ),
    (
        "an odd length is accepted",
        Rules {
            accepts: |length, delay| (RULES.accepts)(length & !1, delay),
            // The last byte has no other beside it.
            word: |bytes, place| {
                let upper = bytes.get(place | 1).copied();
                u16::from_le_bytes([bytes[place & !1], upper.unwrap_or(0)])
            },
            ..RULES
        },
    ),
    (
        "a length over 65,536 is accepted",
        Rules {
            accepts: |length, delay| length % 2 == 0 && delay <= 15,
            ..RULES
        },
    ),
    (
        "a delay of 16 is accepted",
        Rules {
            accepts: |length, delay| (RULES.accepts)(length, if delay == 16 { 15 } else { delay }),
            ..RULES
        },
    ),
    (
        "no 16 for a delay over 15",
        Rules {
            accepts: |length, delay| (RULES.accepts)(length, delay.min(15)),
            ..RULES
        },
    ),
    (
        "a deck that is refused as a whole clears the memory",
        Rules {
            after: |answer, bytes, _| match answer {
                0 | 5..=8 | 17 => {}
                _ => bytes.fill(0),
            },
            ..RULES
        },
    ),
    (
        "a refused attempt takes back what was stored",
        Rules {
            after: |answer, bytes, starting| match answer {
                5..=8 | 17 => bytes.copy_from_slice(starting),
                _ => {}
            },
            ..RULES
        },
    ),
];
