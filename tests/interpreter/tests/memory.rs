//! A memory on the bus, 02's L7: each sentence on a deck of a few words.

mod common;

use common::{deck, r, BLANK};
use interpreter::{run, run_with_memory, Lent, Report, STATE_BYTES};

const COMPUTE: [u8; 4] = [0, 0, 4, 0];
const BUSY: [u8; 4] = [0, 0, 6, 0];
const RESET: [u8; 4] = [0, 0, 12, 0];
const COMPUTE_LOW: [u8; 4] = [0, 0, 0, 0];

const NOP: u32 = 0xFF00;
/// Of R3:R2, as the outputs here are of R5:R4.
const R: u32 = 0xF832;
const W: u32 = 0xF932;
const RA: u32 = 0xFA32;
const WA: u32 = 0xFB32;
/// To R6, of the upper and the lower lines; to R7:R6.
const IB_UPPER: u32 = 0xE006;
const IB_LOWER: u32 = 0xE016;
const IW: u32 = 0xE206;
const IW_RMW: u32 = 0xE246;
/// To TR too, and to G from lines 6-4 in the first, from lines 8-6 in the second.
const IW_G_LOW: u32 = 0xE216;
const IW_G_HIGH: u32 = 0xE226;
const IW_TR: u32 = 0xE236;
const IW_TR_RMW: u32 = 0xE276;
const ISW: u32 = 0xE606;
/// To R8, of the upper lines.
const ISB: u32 = 0xE408;
const OB: u32 = 0xFC54;
const OW: u32 = 0xFD54;
const OS: u32 = 0xFE54;
/// Of R9:R8.
const MI: u32 = 0xEC98;

const WAIT: u32 = 10 << 16;

/// A run whose registers R3:R2 hold an address and R5:R4 B2A1.
struct Run {
    words: Vec<u32>,
    state: [u8; STATE_BYTES],
    samples: Vec<[u8; 4]>,
    memory: Vec<u8>,
    delay: u32,
    marking: u32,
}

/// What it left.
struct Ran {
    report: Report,
    requests: Vec<u32>,
    state: Vec<u8>,
    memory: Vec<u8>,
}

/// These words at an address, COMPUTE alone for each, in a memory of eight bytes 10, 11 .. 17 without
/// delay, on CP1661B.
fn at(address: u16, words: &[u32]) -> Run {
    let mut state = BLANK;
    state[r(2)..r(4)].copy_from_slice(&address.to_le_bytes());
    state[r(4)..r(6)].copy_from_slice(&0xB2A1_u16.to_le_bytes());
    Run {
        words: words.to_vec(),
        state,
        samples: vec![COMPUTE; words.len()],
        memory: (0x10..0x18).collect(),
        delay: 0,
        marking: 1661,
    }
}

impl Run {
    fn delayed(self, delay: u32) -> Self {
        Self { delay, ..self }
    }

    fn sampled(self, samples: Vec<[u8; 4]>) -> Self {
        Self { samples, ..self }
    }

    /// With so many samples of COMPUTE alone.
    fn attempts(self, count: usize) -> Self {
        self.sampled(vec![COMPUTE; count])
    }

    fn with_memory(self, memory: Vec<u8>) -> Self {
        Self { memory, ..self }
    }

    fn marked(self, marking: u32) -> Self {
        Self { marking, ..self }
    }

    /// With this TR.
    fn with_tr(mut self, tr: u16) -> Self {
        self.state[32..34].copy_from_slice(&tr.to_le_bytes());
        self
    }

    fn run(&self) -> Ran {
        let deck = deck(&self.words, &[], &self.state, &self.samples);
        let mut requests = vec![0xA5; 4 * self.samples.len()];
        let (mut state, mut memory) = (vec![0xA5; STATE_BYTES], self.memory.clone());
        let lent = Lent {
            bytes: &mut memory,
            delay: self.delay,
        };
        let report = run_with_memory(&deck, lent, &mut requests, &mut state, self.marking);
        let request = |place: &[u8]| u32::from_le_bytes(place.try_into().unwrap());
        Ran {
            report,
            requests: requests.chunks_exact(4).map(request).collect(),
            state,
            memory,
        }
    }

    /// The requests of a run that is not refused.
    fn requests(&self) -> Vec<u32> {
        let ran = self.run();
        assert_eq!(ran.report.answer, 0);
        ran.requests
    }

    /// The memory after a run that is not refused.
    fn stored(&self) -> Vec<u8> {
        let ran = self.run();
        assert_eq!(ran.report.answer, 0);
        ran.memory
    }
}

/// How many attempts after the first waited before one was completed.
fn waits(requests: &[u32]) -> usize {
    let after = requests.iter().skip(1);
    after.take_while(|&&request| request == WAIT).count()
}

#[test]
fn inputs_see_the_whole_word() {
    for address in [2, 3] {
        assert_eq!(at(address, &[R, IW]).requests()[1], 0x5_1312);
        assert_eq!(at(address, &[R, IB_UPPER]).requests()[1], 0x5_1312);
        let upper = at(address, &[R, IB_UPPER]).run().state[r(6)];
        let lower = at(address, &[R, IB_LOWER]).run().state[r(6)];
        assert_eq!([upper, lower], [0x13, 0x12]);
    }
}

#[test]
fn tr_and_g_are_loaded_from_the_memory_and_ics_from_the_lines() {
    // 01D3 in the memory, 0020 on the lines: G 5 or 7 of the one, 2 or 0 of the other.
    for (word, g, loads) in [
        (IW_G_LOW, 5, true),
        (IW_G_HIGH, 7, true),
        (IW_TR, 3, true),
        (IW, 3, false),
    ] {
        for (ics, before) in [(1, 0), (0, 1)] {
            let lines = [0x20, 0x00, 4 | ics << 4, 0];
            let mut run = at(0, &[R, word]).sampled(vec![lines; 2]).with_tr(0xABCD);
            (run.state[26], run.state[37]) = (3, before);
            let ran = run.with_memory(vec![0xD3, 0x01]).run();
            assert_eq!((ran.report.answer, ran.requests[1]), (0, 0x5_01D3));
            let tr: u16 = if loads { 0x01D3 } else { 0xABCD };
            assert_eq!(
                (ran.state[26], &ran.state[32..34]),
                (g, &tr.to_le_bytes()[..])
            );
            assert_eq!(ran.state[37], if loads { ics } else { before });
        }
    }
}

#[test]
fn rmw_by_the_marking_and_q1() {
    let stores = |marking: u32, tr: u16| {
        let run = at(2, &[R, IW_RMW, OW]).marked(marking).with_tr(tr);
        let ran = run.run();
        assert_eq!((ran.report.answer, ran.requests[1]), (0, 0x5_1312));
        let stored = ran.memory[2..4] == [0xA1, 0xB2];
        assert_eq!(ran.requests[2], if stored { 0x6_B2A1 } else { WAIT });
        assert!(stored || ran.memory == run.memory);
        stored
    };
    for q1 in [0x2000, 0x0BC0] {
        assert!(!stores(1621, q1) && stores(1661, q1));
    }
    for no_q1 in [0x0000, 0x6000, 0x0B80] {
        assert!(stores(1621, no_q1) && stores(1661, no_q1));
    }
}

#[test]
fn q1_is_of_tr_before_the_memory_s_word() {
    // The word 2000 has Q1 true, 0000 false.
    for (before, word, keeps) in [(0x0000, 0x2000, true), (0x2000, 0x0000, false)] {
        let run = at(0, &[R, IW_TR_RMW]).marked(1621).with_tr(before);
        let ran = run.with_memory(u16::to_le_bytes(word).to_vec()).run();
        assert_eq!(
            (ran.report.answer, &ran.state[32..34]),
            (0, &word.to_le_bytes()[..])
        );
        assert_eq!(ran.state[37] & 2 != 0, keeps);
    }
}

#[test]
fn an_input_chooses_by_m_which_os_changes() {
    // b 2: upper if M bit 0. The address is even, B2A1 is odd.
    assert_eq!(at(2, &[R, 0xE026]).run().state[r(6)], 0x12);
    let ran = at(2, &[R, OS, 0xE026]).run();
    assert_eq!((ran.state[r(6)], ran.requests[2]), (0x13, 0x5_1312));
}

#[test]
fn outputs_store() {
    let word = [0x10, 0x11, 0xA1, 0xB2, 0x14, 0x15, 0x16, 0x17];
    assert_eq!(at(2, &[W, OW]).stored(), word);
    assert_eq!(at(3, &[W, OW]).stored(), word);
    let even = [0x10, 0x11, 0xA1, 0x13, 0x14, 0x15, 0x16, 0x17];
    assert_eq!(at(2, &[W, OB]).stored(), even);
    let odd = [0x10, 0x11, 0x12, 0xB2, 0x14, 0x15, 0x16, 0x17];
    assert_eq!(at(3, &[W, OB]).stored(), odd);
    let none = at(2, &[W, OS]);
    assert_eq!(none.stored(), none.memory);
}

#[test]
fn outputs_after_a_read_store_too() {
    for access in [R, RA, WA, 0xF032, 0xF732] {
        assert_eq!(at(6, &[access, OW]).stored()[6..], [0xA1, 0xB2]);
    }
    assert_eq!(at(0, &[R, IW_RMW, OW]).stored()[..2], [0xA1, 0xB2]);
}

#[test]
fn status_inputs_read_the_external_data() {
    let samples = vec![[0x34, 0x12, 4, 0]; 2];
    assert_eq!(at(2, &[R, ISW]).sampled(samples).requests()[1], 0x9_1234);
}

#[test]
fn reply_is_low_for_the_delay() {
    for delay in 0..=15 {
        let run = at(2, &[R, IW]).attempts(2 + delay as usize).delayed(delay);
        assert_eq!(waits(&run.requests()), delay as usize);
        assert_eq!(run.run().requests[1 + delay as usize], 0x5_1312);
    }
}

#[test]
fn whatever_the_delay_passes_with() {
    for passing in [
        vec![COMPUTE_LOW; 3],
        vec![COMPUTE, COMPUTE_LOW, COMPUTE],
        vec![BUSY; 3],
    ] {
        let samples = [vec![COMPUTE], passing, vec![COMPUTE]].concat();
        let requests = at(2, &[R, IW]).sampled(samples).delayed(3).requests();
        assert_eq!(requests[4], 0x5_1312);
    }
    let completed = at(2, &[R, NOP, NOP, NOP, IW]).delayed(3).requests();
    assert_eq!(completed[4], 0x5_1312);
}

#[test]
fn a_later_access_begins_anew() {
    let requests = at(2, &[R, NOP, R, IW]).attempts(7).delayed(3).requests();
    assert_eq!(requests[3..], [WAIT, WAIT, WAIT, 0x5_1312]);
}

#[test]
fn an_access_waits_while_reply_is_high() {
    assert_eq!(at(2, &[R, R]).attempts(3).requests()[1..], [WAIT, WAIT]);
    // Beyond the memory it never is.
    assert_eq!(at(8, &[R, R]).requests()[1], 0x1_0008);
}

#[test]
fn external_reply_is_not_used() {
    let high = vec![[0, 0, 5, 0]; 4];
    assert_eq!(at(8, &[IW]).sampled(high.clone()).requests(), [WAIT; 4]);
    assert_eq!(
        at(2, &[R, IW]).sampled(high).delayed(2).requests()[0],
        0x1_0002
    );
}

#[test]
fn reply_falls_with_sync() {
    let requests = at(2, &[R, IW, IW]).attempts(6).requests();
    assert_eq!(requests[2..], [WAIT; 4]);
    let requests = at(2, &[R, IW_RMW, IW]).requests();
    assert_eq!(requests[1..], [0x5_1312, 0x5_1312]);
}

#[test]
fn there_is_no_address_before_the_first_access() {
    let mut run = at(2, &[IW]).attempts(40);
    run.state[34] = 2;
    for marks in [0, 2, 6] {
        run.state[37] = marks;
        assert_eq!(run.requests(), [WAIT; 40]);
    }
}

#[test]
fn seventeen_is_in_the_place_of_the_33rd_wait() {
    for word in [IB_UPPER, IW, OB, OW] {
        for address in [8, 9, 0xFFFF] {
            let run = at(address, &[R, word]).attempts(50);
            let ran = run.run();
            let [answer, attempts] = [ran.report.answer, ran.report.attempts];
            assert_eq!([answer, attempts, ran.report.microcycles], [17, 33, 33]);
            assert_eq!(ran.requests[1..33], [WAIT; 32]);
            assert!(ran.requests[33..].iter().all(|&place| place == 0xA5A5_A5A5));
            let before = run.attempts(33).run();
            assert_eq!((before.report.answer, before.state), (0, ran.state));
        }
    }
}

#[test]
fn seventeen_is_of_the_code_that_a_modification_made() {
    // R9:R8 makes OB of R and IB of NB; without bits R stays R, which beyond the memory does not wait.
    for (bits, word, waits) in [
        (0x0400, 0xF854, true),
        (0x2000, 0xC006, true),
        (0, 0xF854, false),
    ] {
        let mut run = at(8, &[R, MI, word, NOP]);
        run.state[r(8)..r(10)].copy_from_slice(&u16::to_le_bytes(bits));
        let ran = run.attempts(if waits { 40 } else { 4 }).run();
        if waits {
            let report = [
                ran.report.answer,
                ran.report.attempts,
                ran.report.microcycles,
            ];
            assert_eq!(report, [17, 34, 34]);
            assert_eq!(ran.requests[2..34], [WAIT; 32]);
            // It waits still.
            assert_eq!(ran.state[37] & 8, 8);
            assert_eq!(ran.state[39..41], bits.to_le_bytes());
        } else {
            assert_eq!((ran.report.answer, ran.requests[2]), (0, 0x1_B2A1));
        }
    }
}

#[test]
fn inside_the_memory_waits_go_on() {
    for address in [0, 7] {
        assert_eq!(
            waits(&at(address, &[R, IW, OW]).attempts(100).requests()[1..]),
            98
        );
    }
}

#[test]
fn any_other_attempt_breaks_the_row() {
    let wait_after = |between: [u8; 4]| {
        let samples = [vec![COMPUTE; 33], vec![between], vec![COMPUTE; 33]].concat();
        at(8, &[R, IW]).sampled(samples).run()
    };
    // After RESET LC is 1 again, and the address is kept.
    for between in [COMPUTE_LOW, RESET] {
        let ran = wait_after(between);
        assert_eq!([ran.report.answer, ran.report.attempts], [17, 66]);
    }
    let ran = wait_after(COMPUTE);
    assert_eq!([ran.report.answer, ran.report.attempts], [17, 33]);
}

#[test]
fn waits_of_accesses_are_not_counted() {
    let samples = [vec![COMPUTE], vec![BUSY; 60], vec![COMPUTE; 2]].concat();
    let requests = at(8, &[R, R, NOP]).sampled(samples).requests();
    assert_eq!(waits(&requests), 60);
}

#[test]
fn sixteen() {
    let refused = |length: usize, delay: u32| {
        let run = at(0, &[W, OW])
            .with_memory(vec![0x5A; length])
            .delayed(delay);
        let ran = run.run();
        if ran.report.answer == 16 {
            assert_eq!([ran.report.attempts, ran.report.microcycles], [0, 0]);
            assert_eq!(
                (&ran.memory, ran.state),
                (&run.memory, vec![0xA5; STATE_BYTES])
            );
            assert_eq!(ran.requests, [0xA5A5_A5A5; 2]);
        }
        ran.report.answer == 16
    };
    for length in [0, 2, 65_534, 65_536] {
        assert!(!refused(length, 0) && !refused(length, 15));
        assert!(refused(length, 16) && refused(length, u32::MAX));
    }
    for length in [1, 3, 65_535, 65_537, 65_538, 131_072] {
        assert!(refused(length, 0));
    }
}

/// The answer to a deck as a whole, in a memory of three bytes: all is left as it is.
fn in_odd_memory(deck: &[u8], marking: u32) -> u32 {
    let (mut memory, mut requests, mut state) = ([0x5A; 3], [0xA5; 8], [0xA5; STATE_BYTES]);
    let lent = Lent {
        bytes: &mut memory,
        delay: 0,
    };
    let report = run_with_memory(deck, lent, &mut requests, &mut state, marking);
    assert_eq!([report.attempts, report.microcycles], [0, 0]);
    assert_eq!((memory, requests), ([0x5A; 3], [0xA5; 8]));
    assert_eq!(state, [0xA5; STATE_BYTES]);
    report.answer
}

#[test]
fn others_come_first() {
    let (words, samples) = ([W, OW], [COMPUTE; 2]);
    let whole = deck(&words, &[], &BLANK, &samples);
    assert_eq!(in_odd_memory(&whole, 1661), 16);
    assert_eq!(in_odd_memory(&[&whole[..], &[0]].concat(), 1661), 9);
    assert_eq!(in_odd_memory(&whole[..whole.len() - 1], 1661), 9);
    assert_eq!(in_odd_memory(&whole, 1662), 24);
    let (mut state, mut row) = (BLANK, [0; 16]);
    (state[26], row[14]) = (8, 8);
    let refused = [
        (1, deck(&words, &[], &state, &samples)),
        (2, deck(&[W, 1 << 22], &[], &BLANK, &samples)),
        (3, deck(&words, &[row], &BLANK, &samples)),
        (4, deck(&words, &[], &BLANK, &[[0, 0, 0, 16]])),
        (4, deck(&words, &[], &BLANK, &[COMPUTE; 3])),
    ];
    for (answer, deck) in refused {
        assert_eq!(in_odd_memory(&deck, 1661), answer);
    }
}

#[test]
fn a_refused_attempt_leaves_what_was_stored() {
    for (word, answer) in [(0x7800, 6), (0xE086, 8)] {
        let ran = at(0, &[W, OW, word]).run();
        assert_eq!((ran.report.answer, ran.report.attempts), (answer, 2));
        assert_eq!(ran.memory[..2], [0xA1, 0xB2]);
    }
    let ran = at(0, &[W, OW]).attempts(3).run();
    assert_eq!(
        (ran.report.answer, &ran.memory[..2]),
        (5, &[0xA1, 0xB2][..])
    );
}

#[test]
fn the_last_word_is_inside() {
    let run = at(0xFFFF, &[R, IW, W, OB]).with_memory(vec![0x77; 65_536]);
    let ran = run.run();
    assert_eq!((ran.report.answer, ran.requests[1]), (0, 0x5_7777));
    assert_eq!(ran.memory[65_534..], [0x77, 0xB2]);
}

#[test]
fn without_an_access_it_is_the_run_without_memory() {
    let samples = (1..=5).map(|at| [at, 0xC0 + at, 4 | 1 & at, 0]).collect();
    let own = at(0, &[NOP, OS, ISW, ISB, 0xA242]).sampled(samples);
    let ran = own.run();
    assert_eq!(ran.requests[1..4], [0x8_B2A1, 0x9_C303, 0x9_C404]);
    assert_eq!(ran.state[r(6)..r(9)], [0x03, 0xC3, 0xC4]);
    let deck = deck(&own.words, &[], &own.state, &own.samples);
    let (mut requests, mut state) = ([0; 20], [0; STATE_BYTES]);
    let report = run(&deck, &mut requests, &mut state, 1661);
    assert_eq!((report, &state[..]), (ran.report, &ran.state[..]));
    let requested: Vec<u8> = ran
        .requests
        .iter()
        .flat_map(|own| own.to_le_bytes())
        .collect();
    assert_eq!(requests[..], requested[..]);
}
