//! The generator: the same seed gives the same case, and each kind shows what it is made for.

mod common;

use common::ran_as;
use interpreter::decks::{case, single, Case, Kind};
use interpreter::STATE_BYTES;
use interpreter::{attempt, place, q1, section, Marking, Outcome, Report, Row, Sample, State};

fn report(case: &Case) -> Report {
    ran_as(&case.deck, case.requests, case.state, case.marking).report
}

fn answers(kind: Kind, cases: u64) -> [u32; 25] {
    let mut answers = [0; 25];
    for seed in 0..cases {
        answers[report(&case(kind, seed)).answer as usize] += 1;
    }
    answers
}

#[test]
fn the_same_seed_gives_the_same_case() {
    for kind in Kind::ALL {
        let (one, other) = (case(kind, 7), case(kind, 7));
        assert_eq!(one.deck, other.deck);
        assert_eq!((one.requests, one.state), (other.requests, other.state));
        assert_eq!(one.marking, other.marking);
    }
}

#[test]
fn damages_get_their_refusal() {
    let damaging = Kind::Inputs as usize + 1;
    for kind in &Kind::ALL[damaging..Kind::ALL.len() - 1] {
        let answer = match *kind as usize {
            at if at <= Kind::StateOutputs as usize => 1,
            at if at <= Kind::WordsMany as usize => 2,
            at if at <= Kind::RowsMany as usize => 3,
            at if at <= Kind::RequestsShort as usize => 4,
            at if at <= Kind::StateBuffer as usize => 9,
            _ => 24,
        };
        let got = answers(*kind, 40);
        assert_eq!(got[answer], 40, "{kind:?}: {got:?}");
    }
}

#[test]
fn several_damages_show_the_order() {
    let got = answers(Kind::Several, 400);
    for answer in [1, 2, 3, 4, 9, 24] {
        assert!(got[answer] >= 10, "{got:?}");
    }
    assert_eq!(got[0] + got[5..9].iter().sum::<u32>(), 0, "{got:?}");
}

#[test]
fn refusals_at_a_fetch_come_up() {
    let illegal = answers(Kind::Illegal, 100);
    assert!(illegal[6] >= 10 && illegal[8] >= 10, "{illegal:?}");
    let astray = answers(Kind::Astray, 100);
    assert!(astray[5] >= 30, "{astray:?}");
    let noise = answers(Kind::Noise, 100);
    assert!(noise[6] >= 10 && noise[8] >= 5, "{noise:?}");
    let bare = answers(Kind::Bare, 100);
    assert!(bare[0] >= 10 && bare[5] >= 10, "{bare:?}");
}

#[test]
fn long_decks_run_long() {
    let decks = 24;
    let reports = (0..decks).map(|seed| report(&case(Kind::Long, seed)));
    let attempts: u32 = reports.map(|report| report.attempts).sum();
    assert!(attempts / decks as u32 >= 2500, "{attempts}");
    let largest = report(&case(Kind::Largest, 1));
    assert!(largest.attempts >= 1000, "{largest:?}");
    assert!(case(Kind::Largest, 1).deck.len() <= 65_536);
}

#[test]
fn cases_have_both_markings() {
    for kind in Kind::ALL {
        let markings = (0..40).map(|seed| Marking::from_number(case(kind, seed).marking));
        let markings: Vec<Option<Marking>> = markings.collect();
        let count = |own| markings.iter().filter(|it| **it == own).count();
        let [known, unknown] = [40 - count(None), count(None)];
        match kind {
            Kind::Marking => assert_eq!(known, 0),
            Kind::Several => assert!(known >= 10 && unknown >= 4, "{markings:?}"),
            _ => assert_eq!(unknown, 0, "{kind:?}"),
        }
        let [base, other] = [Marking::Cp1661b, Marking::Cp1621b].map(|own| count(Some(own)));
        assert!(known == 0 || base >= 4 && other >= 4, "{markings:?}");
    }
}

/// RMW inputs that find SYNC high, by code, marking and Q1.
type Rmw = [[[u32; 2]; 2]; 4];

/// Counts an attempt that came to this.
fn count_rmw(seen: &mut Rmw, word: u32, before: &State, marking: Marking, outcome: Outcome) {
    let data_in = matches!(outcome, Outcome::Done { request, .. } if request >> 16 == 5);
    if data_in && word & 0x40 != 0 && before.sync {
        let marked = usize::from(marking == Marking::Cp1621b);
        seen[word as usize >> 8 & 3][marked][usize::from(q1(before.tr))] += 1;
    }
}

#[test]
fn singles_have_rmw_inputs_about_q1() {
    let mut seen = Rmw::default();
    for (top, at) in (0xE0..=0xE3).flat_map(|top| (0..2000).map(move |at| (top, at))) {
        let single = single(at << 8 | top);
        let before = State::from_bytes(&single.state).unwrap();
        let (outcome, _) = stepped(at << 8 | top);
        let stored = single.words.get(usize::from(before.lc)).copied();
        let word = stored.unwrap_or(0) | u32::from(before.modification.unwrap_or(0));
        count_rmw(&mut seen, word, &before, single.marking, outcome);
    }
    let all = seen.iter().flatten().flatten();
    assert!(all.min() >= Some(&20), "{seen:?}");
}

/// Counts the attempts of a deck that is accepted.
fn count_deck(seen: &mut Rmw, case: &Case) {
    let numbers = |bytes: &[u8]| -> Vec<u32> {
        let numbers = bytes.chunks(4).map(|it| it.try_into().unwrap());
        numbers.map(u32::from_le_bytes).collect()
    };
    let marking = Marking::from_number(case.marking).unwrap();
    let (words, rest) = section(&case.deck, 4).unwrap();
    let (rows, rest) = section(rest, 16).unwrap();
    let (state, rest) = section(rest, STATE_BYTES).unwrap();
    let (samples, _) = section(rest, 4).unwrap();
    let rows = rows.chunks(16).map(|row| row.try_into().unwrap());
    let rows: Vec<Row> = rows.map(|row| Row::from_bytes(row).unwrap()).collect();
    let words = numbers(words);
    let mut state = State::from_bytes(state.try_into().unwrap()).unwrap();
    for sample in numbers(samples) {
        let sample = Sample::from_bytes(&sample.to_le_bytes()).unwrap();
        let before = state.clone();
        let outcome = attempt(&words, &rows, &mut state, sample, marking);
        let stored = words.get(usize::from(before.lc)).copied();
        let word = stored.unwrap_or(0) | u32::from(before.modification.unwrap_or(0));
        count_rmw(seen, word, &before, marking, outcome);
    }
}

#[test]
fn decks_have_rmw_inputs_about_q1() {
    let mut seen = Rmw::default();
    (0..100).for_each(|seed| count_deck(&mut seen, &case(Kind::Inputs, seed)));
    let all = seen.iter().flatten().flatten();
    assert!(all.min() >= Some(&30), "{seen:?}");
    let done = answers(Kind::Inputs, 100)[0];
    assert!(done >= 50, "{done}");
}

#[test]
fn outputs_are_any_before_and_in_words() {
    let (mut before, mut in_words) = ([0; 16], [0; 16]);
    for seed in 0..400 {
        let deck = case(Kind::Short, seed).deck;
        let (words, rest) = section(&deck, 4).unwrap();
        let (_, rest) = section(rest, 16).unwrap();
        let (state, _) = section(rest, STATE_BYTES).unwrap();
        before[usize::from(state[41])] += 1;
        for word in words.chunks(4) {
            in_words[usize::from(word[2] >> 2)] += 1;
        }
    }
    let all = before.iter().chain(&in_words);
    assert!(all.min() >= Some(&10), "{before:?} {in_words:?}");
}

/// Steps a single attempt.
fn stepped(seed: u64) -> (Outcome, bool) {
    let single = single(seed);
    let rows: Vec<Row> = single
        .rows
        .iter()
        .map(|row| Row::from_bytes(row).unwrap())
        .collect();
    let mut state = State::from_bytes(&single.state).unwrap();
    assert_eq!(state.to_bytes(), single.state);
    let before = state.clone();
    let sample = Sample::from_bytes(&single.sample).unwrap();
    let outcome = attempt(&single.words, &rows, &mut state, sample, single.marking);
    let mut bare = before.clone();
    attempt(&single.words, &[], &mut bare, sample, single.marking);
    if matches!(outcome, Outcome::Refused(_)) {
        assert_eq!(state, before);
    }
    // Through the host's entry it comes to the same.
    let ran = ran_as(&single.deck(), 4, STATE_BYTES, single.marking.number());
    assert_eq!(ran.state, state.to_bytes());
    match outcome {
        Outcome::Done {
            request,
            microcycles,
        } => {
            assert_eq!(ran.numbers(), [0, 1, microcycles]);
            assert_eq!(ran.requests, request.to_le_bytes());
        }
        Outcome::Refused(answer) => assert_eq!(ran.numbers(), [answer.into(), 0, 0]),
    }
    (outcome, bare != state)
}

#[test]
fn singles_reach_every_code() {
    let mut executed = [0; 256];
    let (mut refused, mut kinds, mut translated) = ([0; 9], [0; 13], 0);
    for seed in 0..256 * 40 {
        let (outcome, by_rows) = stepped(seed);
        translated += u32::from(by_rows);
        match outcome {
            Outcome::Done { request, .. } => {
                let kind = request as usize >> 16;
                kinds[kind] += 1;
                executed[seed as usize % 256] += u32::from(kind < 10);
            }
            Outcome::Refused(answer) => refused[usize::from(answer)] += 1,
        }
    }
    let reached = executed.iter().filter(|&&count| count >= 5).count();
    assert_eq!(reached, 256 - 18, "{executed:?}");
    let come_up = [5, 6, 8].iter().all(|&answer| refused[answer] >= 10);
    assert!(come_up && refused[7] == 0, "{refused:?}");
    assert!(kinds.iter().all(|&count| count >= 10), "{kinds:?}");
    assert!(translated >= 500, "{translated}");
}

/// The words of code `top` that singles execute without a request, each with the state before it.
fn executed(top: u32) -> impl Iterator<Item = (u32, State)> {
    let seeds = (0..400).map(move |at| at << 8 | u64::from(top));
    seeds.filter_map(move |seed| {
        let (outcome, _) = stepped(seed);
        let done = matches!(outcome, Outcome::Done { request, .. } if request >> 16 == 0);
        let single = single(seed);
        let state = State::from_bytes(&single.state)?;
        let word = single.words.get(usize::from(state.lc))?;
        let word = word | u32::from(state.modification.unwrap_or(0));
        (done && word >> 8 & 0xFF == top).then_some((word, state))
    })
}

/// Whether Ra of a word operation is Rb's high byte.
fn crosswise(word: u32, g: u8) -> bool {
    place(word as u8, g) == place((word >> 4) as u8 ^ 1, g)
}

#[test]
fn singles_shift_all_top_bits_left() {
    for top in [0x89, 0x8B, 0x8D, 0x8F] {
        let mut seen = [[0; 2]; 4];
        for (word, state) in executed(top).filter(|(word, state)| !crosswise(*word, state.g)) {
            let highest = (word >> 4) as u8 ^ (word >> 9) as u8 & 1;
            let bits = state.registers[place(highest, state.g)] >> 6;
            seen[usize::from(bits)][usize::from(state.flags >> 4 & 1)] += 1;
        }
        assert!(seen.iter().flatten().min() >= Some(&10), "{top:X} {seen:?}");
    }
}

#[test]
fn singles_have_pairs_of_all_kinds() {
    for top in (0x82..=0xDF).filter(|top| top & 2 != 0 && !matches!(top, 0xD4..=0xD7)) {
        // By b and a, even and odd; crosswise ones by a, even and odd.
        let (mut apart, mut across) = ([0; 4], [0; 2]);
        for (word, state) in executed(top) {
            if crosswise(word, state.g) {
                across[word as usize & 1] += 1;
            } else {
                apart[(word >> 3 & 2 | word & 1) as usize] += 1;
            }
        }
        assert!(apart.iter().min() >= Some(&40), "{top:X} {apart:?}");
        assert!(across.iter().min() >= Some(&4), "{top:X} {across:?}");
    }
}
