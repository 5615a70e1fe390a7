//! Damages, one for each rule of refusals 9, 24 and 1-4.

use super::draft::Draft;
use super::{parts, Case, Kind, Random};
use crate::{DECK_LIMIT, STATE_BYTES};

/// The bytes of a state before it had the outputs.
const OLD_BYTES: usize = 41;

/// Damages a field of the sections. Kinds that damage none leave them.
pub(super) fn fields(kind: Kind, draft: &mut Draft, random: &mut Random) {
    match kind {
        Kind::StateG
        | Kind::StateLc
        | Kind::StateRr
        | Kind::StateTsr
        | Kind::StateMarks
        | Kind::StateInternal
        | Kind::StateModification
        | Kind::StateOutputs => state(kind, &mut draft.state, random),
        Kind::WordRange => {
            let at = random.below(draft.words.len() as u32) as usize;
            draft.words[at] |= 1 << (22 + random.below(10));
        }
        Kind::WordsMany => {
            let count = 2049 + random.below(100) as usize * random.below(2) as usize;
            draft.words = parts::program(random, count);
        }
        Kind::RowsMany => {
            let count = 129 + random.below(10) as usize * random.below(2) as usize;
            draft.rows = (0..count).map(|_| parts::row(random, 16)).collect();
        }
        Kind::SampleLines => any(&mut draft.samples, random)[2] |= 32 << random.below(3),
        Kind::SampleInterrupts => any(&mut draft.samples, random)[3] |= 16 << random.below(4),
        Kind::DeckLong => {
            let missing = DECK_LIMIT.saturating_sub(draft.bytes().len()) / 4 + 1;
            draft
                .samples
                .extend((0..missing).map(|_| parts::sample(random, 64)));
        }
        _ => row(kind, draft, random),
    }
}

/// One of the items.
fn any<'a, T>(items: &'a mut [T], random: &mut Random) -> &'a mut T {
    &mut items[random.below(items.len() as u32) as usize]
}

fn state(kind: Kind, state: &mut [u8; STATE_BYTES], random: &mut Random) {
    match kind {
        Kind::StateG => state[26] |= 8 << random.below(5),
        Kind::StateLc => state[29] |= 8 << random.below(5),
        Kind::StateRr => state[31] |= 8 << random.below(5),
        Kind::StateTsr => state[36] |= 8 << random.below(5),
        Kind::StateMarks => state[37] |= 16 << random.below(4),
        Kind::StateInternal => state[38] |= 8 << random.below(5),
        Kind::StateOutputs => state[41] |= 16 << random.below(4),
        _ => {
            state[37] &= !8;
            state[39 + random.below(2) as usize] |= 1 << random.below(8);
        }
    }
}

fn row(kind: Kind, draft: &mut Draft, random: &mut Random) {
    // A bit outside the mask needs a mask without it.
    let (mask, value, bit) = match kind {
        Kind::RowLcValue => {
            let bit = random.below(11) as usize;
            (bit / 8, 2 + bit / 8, 1 << (bit % 8))
        }
        Kind::RowRniValue => (4, 5, 1),
        Kind::RowTrValue => (6, 7, 1 << random.below(8)),
        Kind::RowTsrValue => (8, 9, 1 << random.below(2)),
        Kind::RowInterruptValue => (10, 11, 1 << random.below(7)),
        Kind::RowLcMask => return any(&mut draft.rows, random)[1] |= 8 << random.below(5),
        Kind::RowRniMask => return any(&mut draft.rows, random)[4] |= 2 << random.below(7),
        Kind::RowTsrMask => return any(&mut draft.rows, random)[8] |= 4 << random.below(6),
        Kind::RowInterruptMask => return any(&mut draft.rows, random)[10] |= 128,
        Kind::RowAddress => return any(&mut draft.rows, random)[13] |= 8 << random.below(5),
        Kind::RowLines => return any(&mut draft.rows, random)[14] |= 8 << random.below(5),
        Kind::RowNewTsr => return any(&mut draft.rows, random)[15] |= 8 << random.below(5),
        _ => return,
    };
    let row = any(&mut draft.rows, random);
    row[mask] &= !bit;
    row[value] |= bit;
}

/// Damages a count, a length or the marking. Kinds that damage none leave them.
pub(super) fn lengths(kind: Kind, draft: &Draft, case: &mut Case, random: &mut Random) {
    let length = case.deck.len() as u32;
    match kind {
        Kind::Roomy => case.requests += random.below(40) as usize,
        Kind::RequestsShort => {
            let samples = draft.samples.len() as u32;
            let most = (4 * samples).saturating_sub(1);
            let less = if random.one_in(2) {
                0
            } else {
                random.below(4 * samples)
            };
            case.requests = most.saturating_sub(less) as usize;
        }
        Kind::Truncated => {
            let lost = if random.one_in(2) {
                1
            } else {
                random.below(length) + 1
            };
            case.deck.truncate(length.saturating_sub(lost) as usize);
        }
        Kind::Extended => {
            let extra = 1 + random.below(48);
            case.deck.extend((0..extra).map(|_| random.byte()));
        }
        Kind::WordCount => miscount(draft.counts()[0], case, random),
        Kind::RowCount => miscount(draft.counts()[1], case, random),
        Kind::StateCount => states(draft.counts()[2], case, random),
        Kind::StateOld => without_outputs(draft.counts()[2], case),
        Kind::SampleCount => miscount(draft.counts()[3], case, random),
        Kind::StateBuffer => {
            let wrong = [0, 1, OLD_BYTES, STATE_BYTES + 1, 2 * STATE_BYTES, 4096];
            case.state = random.pick(&wrong);
        }
        Kind::Marking => case.marking = unknown(random),
        _ => {}
    }
}

/// A marking that no chip has, mostly one bit away from one that a chip has; those are two bits apart.
fn unknown(random: &mut Random) -> u32 {
    if random.one_in(4) {
        random.pick(&[0, 1, 24, 1620, 1622, 1660, 1662, 0x1621, 0x1661, u32::MAX])
    } else {
        random.pick(&[1661, 1621]) ^ 1 << random.below(32)
    }
}

/// Changes a count, by one or hugely.
fn miscount(at: usize, case: &mut Case, random: &mut Random) {
    let place = match case.deck.get_mut(at..at + 2) {
        Some(place) => place,
        None => return,
    };
    let count = u16::from_le_bytes([place[0], place[1]]);
    let change = match random.below(4) {
        0 => 1,
        1 => u16::MAX,
        2 => random.pick(&[128, 129, 2048, 2049, 0x8000]),
        _ => 1 + random.below(0xFFFF) as u16,
    };
    place.copy_from_slice(&count.wrapping_add(change).to_le_bytes());
}

/// Changes the state count, sometimes with as many states after it.
fn states(at: usize, case: &mut Case, random: &mut Random) {
    let count = random.pick(&[0_u16, 2, 3, 256, 257, 0xFFFF]);
    match case.deck.get_mut(at..at + 2) {
        Some(place) => place.copy_from_slice(&count.to_le_bytes()),
        None => return,
    }
    let bytes = at + 2..at + 2 + STATE_BYTES;
    if let (0..=3, true, Some(state)) = (
        count,
        random.one_in(2),
        case.deck.get(bytes.clone()).map(<[u8]>::to_vec),
    ) {
        case.deck.splice(bytes, state.repeat(count.into()));
    }
}

/// Takes the outputs away from the state after this count.
fn without_outputs(at: usize, case: &mut Case) {
    let outputs = at + 2 + OLD_BYTES..at + 2 + STATE_BYTES;
    if outputs.end <= case.deck.len() {
        case.deck.drain(outputs);
    }
}
