//! The service profile, 02's L14.

mod common;

use common::{deck, ran_as, BLANK};
use interpreter::decks::{case, Kind, Random};
use interpreter::{profile, section, STATE_BYTES};

const NOP: u32 = 0xFF00;
const MI: u32 = 0xEC00;
const CAD: u32 = 0xAC00;
/// Bit 16.
const RR: u32 = 1 << 16;

fn bytes(words: &[u32]) -> Vec<u8> {
    words.iter().flat_map(|word| word.to_le_bytes()).collect()
}

/// Answer, address and rule.
fn of(words: &[u32]) -> [u32; 3] {
    of_bytes(&bytes(words))
}

fn of_bytes(bytes: &[u8]) -> [u32; 3] {
    let told = profile(bytes);
    [told.answer, told.address, told.rule]
}

#[test]
fn accepted() {
    assert_eq!(of(&[]), [0, 0, 0]);
    for first in [NOP, 0xFFFF, 0x0000, 0x07FF, RR, 0x3E_FF00, 0x3F_0123] {
        assert_eq!(of(&[first]), [0, 0, 0], "{first:X}");
    }
    // RR by JMP and by the conditional jumps, anywhere but at 0, where these are not allowed.
    for jump in (0x00..=0x07).chain(0x10..=0x1F) {
        assert_eq!(of(&[NOP, RR | jump << 8 | 0x34]), [0, 0, 0], "{jump:X}");
    }
    // RFS and every other listed code, without bit 16 and with all others.
    for top in (0x08..=0xFF).filter(|top| !unlisted(*top) && !matches!(top, 0xAC | 0xEC | 0xED)) {
        assert_eq!(of(&[0, 0x3E_00FF | top << 8]), [0, 0, 0], "{top:X}");
    }
    assert_eq!(of(&[NOP; 2048]), [0, 0, 0]);
}

fn unlisted(top: u32) -> bool {
    matches!(top, 0x78..=0x7F | 0xAD | 0xD4..=0xD7 | 0xE8..=0xEB)
}

#[test]
fn two() {
    for word in [1 << 22, 1 << 31, u32::MAX, 1 << 22 | NOP] {
        assert_eq!(of(&[word]), [2, 0, 0]);
        assert_eq!(of(&[NOP, NOP, word, NOP, word]), [2, 2, 0]);
        // Before 25, also of an earlier word.
        assert_eq!(of(&[MI, CAD, word]), [2, 2, 0]);
        let mut words = vec![NOP; 2048];
        words[2047] = word;
        assert_eq!(of(&words), [2, 2047, 0]);
        // Beyond the 2,048th only the number of words counts.
        words = vec![NOP; 2050];
        words[2049] = word;
        assert_eq!(of(&words), [2, 2048, 0]);
        words[5] = word;
        assert_eq!(of(&words), [2, 5, 0]);
    }
    assert_eq!(of(&[(1 << 22) - 1 - RR]), [0, 0, 0]);
    assert_eq!(of(&[NOP; 2049]), [2, 2048, 0]);
    assert_eq!(of(&[MI; 2049]), [2, 2048, 0]);
}

#[test]
fn two_by_length() {
    let words = bytes(&[NOP, MI, NOP]);
    for length in 0..=12 {
        let expected = match length {
            0 | 4 => [0, 0, 0],
            8 | 12 => [25, 1, 1],
            _ => [2, 2048, 0],
        };
        assert_eq!(of_bytes(&words[..length]), expected, "{length}");
    }
    // A part of a word is no word, whatever its bytes are; a whole one that is too large comes first.
    for part in 1..4 {
        assert_eq!(of_bytes(&[0xFF; 3][..part]), [2, 2048, 0]);
        let mut large = bytes(&[NOP, 1 << 22]);
        large.extend(vec![0xFF; part]);
        assert_eq!(of_bytes(&large), [2, 1, 0]);
        let mut most = bytes(&[NOP; 2048]);
        most.extend(vec![0; part]);
        assert_eq!(of_bytes(&most), [2, 2048, 0]);
    }
}

#[test]
fn one_no_mi() {
    // With b and a 0 too, and odd.
    for mi in [0xEC00, 0xED00, 0xECFF, 0xED42] {
        assert_eq!(of(&[NOP, mi]), [25, 1, 1]);
    }
    // LTR is beside it, and so are the unlisted codes.
    assert_eq!(of(&[NOP, 0xEE00, 0xEF00]), [0, 0, 0]);
    assert_eq!(of(&[NOP, 0xEB00]), [25, 1, 4]);
}

#[test]
fn two_rr_by_jumps_alone() {
    for top in 0x00..=0xFF {
        let expected = match top {
            0x00..=0x07 | 0x10..=0x1F => [0, 0, 0],
            0xEC | 0xED => [25, 2, 1],
            _ => [25, 2, 2],
        };
        assert_eq!(of(&[0, NOP, RR | top << 8]), expected, "{top:X}");
    }
    // RFS is no jump here, whatever its don't-care bits.
    for rfs in [0x0800, 0x0FFF] {
        assert_eq!(of(&[NOP, RR | rfs]), [25, 1, 2]);
        assert_eq!(of(&[NOP, rfs]), [0, 0, 0]);
    }
    // The bits beside it load nothing.
    assert_eq!(of(&[NOP, RR << 1 | 0xA132, 0xA132 | 0x8000]), [0, 0, 0]);
}

#[test]
fn three_at_address_0() {
    for top in 0x00..=0xFF {
        let expected = match top {
            0x00..=0x07 | 0xFF => [0, 0, 0],
            0xEC | 0xED => [25, 0, 1],
            _ => [25, 0, 3],
        };
        assert_eq!(of(&[top << 8]), expected, "{top:X}");
        // At address 1 it is another matter.
        let [_, address, rule] = of(&[NOP, top << 8]);
        assert!(rule != 3 && address == u32::from(rule != 0), "{top:X}");
    }
}

#[test]
fn four_listed_and_no_cad() {
    for top in 0x00..=0xFF {
        let expected = match top {
            0xEC | 0xED => [25, 1, 1],
            0xAC => [25, 1, 4],
            _ if unlisted(top) => [25, 1, 4],
            _ => [0, 0, 0],
        };
        assert_eq!(of(&[NOP, top << 8 | 0x32]), expected, "{top:X}");
    }
}

#[test]
fn the_first_rule_broken_at_the_lowest_address() {
    // 1 before 2 and 3, 2 before 3 and 4, 3 before 4.
    assert_eq!(of(&[RR | MI]), [25, 0, 1]);
    assert_eq!(of(&[MI]), [25, 0, 1]);
    assert_eq!(of(&[RR | 0xA132]), [25, 0, 2]);
    assert_eq!(of(&[RR | NOP]), [25, 0, 2]);
    assert_eq!(of(&[RR | 0x7800]), [25, 0, 2]);
    assert_eq!(of(&[NOP, RR | CAD]), [25, 1, 2]);
    assert_eq!(of(&[CAD]), [25, 0, 3]);
    assert_eq!(of(&[0x7800]), [25, 0, 3]);
    // A later word with an earlier rule does not come before.
    let broken = [(0x7800, 4), (RR | NOP, 2), (MI, 1), (CAD, 4)];
    for (first, rule) in broken {
        for (second, _) in broken {
            assert_eq!(of(&[0, NOP, first, NOP, second]), [25, 2, rule]);
        }
    }
    let mut words = [NOP; 2048];
    words[2047] = CAD;
    assert_eq!(of(&words), [25, 2047, 4]);
}

/// The profile as 02 says it, word by word.
fn by_sentences(words: &[u32]) -> [u32; 3] {
    for (address, word) in (0..).zip(words) {
        let (top, loads) = (word / 256 % 256, word / 65_536 % 2 == 1);
        let (jmp, nop) = (top < 8, top == 255);
        let rule = if top == 0xEC || top == 0xED {
            1
        } else if loads && (top >= 0x20 || (8..16).contains(&top)) {
            2
        } else if address == 0 && !jmp && !nop {
            3
        } else if unlisted(top) || top == 0xAC {
            4
        } else {
            continue;
        };
        return [25, address, rule];
    }
    [0, 0, 0]
}

#[test]
fn every_word_at_0_and_at_1() {
    for word in 0..1 << 17 {
        let word = word | (word & 31) << 17;
        assert_eq!(of(&[word]), by_sentences(&[word]), "{word:X}");
        let words = [0, word];
        assert_eq!(of(&words), by_sentences(&words), "{word:X}");
    }
}

/// The words of a deck without what breaks the profile.
fn mended(random: &mut Random, words: &[u8]) -> Vec<u32> {
    let mut words: Vec<u32> = words
        .chunks(4)
        .map(|word| u32::from_le_bytes(word.try_into().unwrap()))
        .collect();
    while let [25, address, rule] = of(&words) {
        let word = &mut words[address as usize];
        *word = match rule {
            2 => *word & !RR,
            3 => random.pick(&[NOP, 0x0001]),
            _ => 0xF000 | random.below(0x1000),
        };
    }
    words
}

#[test]
fn accepted_words_never_answer_six() {
    let random = &mut Random::new(14);
    let (mut answers, mut attempts) = ([0; 9], 0);
    for (kind, seed) in [Kind::Long, Kind::Illegal, Kind::Astray, Kind::Noise]
        .into_iter()
        .flat_map(|kind| (0..150).map(move |seed| (kind, seed)))
    {
        let own = case(kind, seed).deck;
        let (words, rest) = section(&own, 4).unwrap();
        let (rows, rest) = section(rest, 16).unwrap();
        let (state, rest) = section(rest, STATE_BYTES).unwrap();
        let (samples, _) = section(rest, 4).unwrap();
        let words = mended(random, words);
        assert_eq!(of(&words), [0, 0, 0]);
        let mut state: [u8; STATE_BYTES] = state.try_into().unwrap();
        // Without a waiting modification.
        state[37] &= 7;
        state[39..41].fill(0);
        let [rows, samples] = [(rows, 16), (samples, 4)].map(|(of, size)| of.chunks(size));
        let rows: Vec<[u8; 16]> = rows.map(|row| row.try_into().unwrap()).collect();
        let samples: Vec<[u8; 4]> = samples.map(|it| it.try_into().unwrap()).collect();
        let deck = deck(&words, &rows, &state, &samples);
        for marking in [1661, 1621] {
            let ran = ran_as(&deck, 65_536, STATE_BYTES, marking);
            answers[ran.numbers()[0] as usize] += 1;
            attempts += ran.numbers()[1];
        }
    }
    let [done, beyond, options] = [answers[0], answers[5], answers[8]];
    assert_eq!(done + beyond + options, 1200, "{answers:?}");
    assert!(done >= 300 && beyond >= 50 && options >= 50, "{answers:?}");
    assert!(attempts > 500_000, "{attempts}");
}

#[test]
fn a_waiting_modification_can_answer_six() {
    // The claim needs a start without one: NOP is accepted, and NOP ORed with anything is NOP; JMP is not.
    let mut state = BLANK;
    (state[37], state[40]) = (8, 0x78);
    let deck = deck(&[0x0000], &[], &state, &[[0, 0, 4, 0]]);
    assert_eq!(of(&[0x0000]), [0, 0, 0]);
    for marking in [1661, 1621] {
        assert_eq!(ran_as(&deck, 4, STATE_BYTES, marking).numbers()[0], 6);
    }
}
