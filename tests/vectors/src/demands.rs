//! The vectors that each code must have, by the rules of 01 and 02 for top bytes. Nothing here is
//! taken from the modules that draft them.

use crate::code::{Code, Format};
use crate::demand::Demand;
use crate::draft::Claim::{Executed, Failed, NotTaken, Refused, Reset, Still, Taken, Waits};
use crate::setting::{LOAD_RR, OUTPUTS};
use compare::lines::{BUSY, COMPUTE, REPLY, RESET};
use interpreter::{q1, Marking};

/// Every code's.
const EVERY: [&str; 3] = ["ordinary", "edge", "other"];

/// Cases of a few codes: first and last top byte, and names.
const NAMED: [(u8, u8, &[&str]); 10] = [
    (0x00, 0x07, &["lowest", "bit-16-last", "modified"]),
    (0x08, 0x0F, &["lowest"]),
    (0x20, 0x6F, &["modified"]),
    (0x70, 0x71, &["i4", "i5", "i6", "all", "already"]),
    (0x72, 0x72, &["crossed", "condition", "status"]),
    (
        0x73,
        0x73,
        &["only-n", "only-z", "only-v", "only-c", "none"],
    ),
    (
        0x74,
        0x74,
        &[
            "already",
            "over-ltsr",
            "rows-tsr",
            "rows-tr-lower",
            "rows-or",
        ],
    ),
    (0x75, 0x75, &["upper-bits"]),
    (0xEC, 0xED, &["next-word"]),
    (0xEC, 0xFE, &["no-pair", "same-register"]),
];

/// What rows ask for, each with these endings.
const ASKED: [&str; 6] = ["lc", "tr-upper", "tr-lower", "tsr", "tsr-bit-2", "i"];
const ENDINGS: [&str; 4] = ["", "-turned", "-bits", "-bits-turned"];

/// The other vectors of NOP, most of them on what rows give.
const NOP: [&str; 21] = [
    "bit-16-last",
    "user-outputs",
    "bit-17",
    "bit-17-low",
    "lra",
    "ltsr",
    "rows-rni-any",
    "rows-rni-any-low",
    "rows-every-mask",
    "rows-no-mask",
    "rows-unmatched",
    "rows-lta",
    "rows-lra",
    "rows-lra-over-lta",
    "rows-ltsr",
    "rows-ltsr-0",
    "rows-no-lines",
    "rows-all-lines",
    "rows-or",
    "rows-or-lines",
    "rows-or-no-lines",
];

/// All demands on a code's vectors.
pub fn all(code: &Code) -> Vec<Demand> {
    let mut all: Vec<Demand> = EVERY.map(Demand::named).into();
    let top = code.top;
    if code.format == Format::Refused {
        all.extend(refused());
        return all;
    }
    for (first, last, names) in NAMED {
        if (first..=last).contains(&top) {
            all.extend(names.iter().map(|&name| Demand::named(name)));
        }
    }
    let rules = [
        jumps, literals, conditions, registers, halves, shifts, pairs, options, markings, waits,
        ignored, nothing,
    ];
    all.extend(rules.iter().flat_map(|rule| rule(top)));
    all
}

/// CAD and the unlisted codes.
fn refused() -> Vec<Demand> {
    let names = ["ordinary", "edge", "other", "second", "modified"];
    let mut all: Vec<Demand> = names
        .map(|name| Demand::named(name).claim(Refused(6)))
        .into();
    all.extend(not_fetched());
    all
}

fn not_fetched() -> [Demand; 2] {
    [
        Demand::named("compute-low")
            .claim(Still)
            .lines(COMPUTE | RESET, 0),
        Demand::named("reset").claim(Reset),
    ]
}

/// Bit 16 and rows; each way of a conditional jump.
fn jumps(top: u8) -> Vec<Demand> {
    let bit_16 = |name: &str| Demand::named(name).word(LOAD_RR, LOAD_RR);
    match top {
        0x00..=0x0F => vec![bit_16("bit-16"), Demand::named("rows")],
        0x10..=0x1F => {
            let taken = ["ordinary", "edge", "one-flag", "rows"];
            let passed = ["other", "page-end", "last-word", "rows-not-taken"];
            let mut all: Vec<Demand> = taken.map(|name| Demand::named(name).claim(Taken)).into();
            all.extend(passed.map(|name| Demand::named(name).claim(NotTaken)));
            all.push(bit_16("bit-16").claim(Taken));
            all.push(bit_16("bit-16-not-taken").claim(NotTaken));
            all
        }
        _ => Vec::new(),
    }
}

fn literals(top: u8) -> Vec<Demand> {
    match top {
        0x20..=0x6F => vec![
            Demand::named("literal-00").word(0xFF0, 0x000),
            Demand::named("literal-ff").word(0xFF0, 0xFF0),
        ],
        _ => Vec::new(),
    }
}

/// A condition that holds and that fails; a flag that comes in as a carry.
fn conditions(top: u8) -> Vec<Demand> {
    let (holds, fails) = (
        Demand::named("ordinary"),
        Demand::named("failed").claim(Failed),
    );
    let carry = Demand::named("carry").claim(Executed);
    match top {
        0x84..=0x87 | 0xA4..=0xA7 => vec![
            holds.before(|state| state.flags & 0x10 != 0),
            fails.before(|state| state.flags & 0x10 == 0),
        ],
        0xAE | 0xAF => vec![
            holds.before(|state| state.ics),
            fails.before(|state| !state.ics),
        ],
        0x88..=0x8B | 0xA8..=0xAB | 0xB8..=0xBB | 0xD8..=0xDB => {
            vec![carry.before(|state| state.flags & 0x10 != 0)]
        }
        0x76 | 0x77 => vec![carry.before(|state| state.flags & 0x01 != 0)],
        _ => Vec::new(),
    }
}

/// A designator of 0 or 1.
fn registers(top: u8) -> Vec<Demand> {
    match top {
        0x20..=0x6F | 0x72 | 0x73 | 0x75..=0x77 | 0x80..=0xFE => {
            vec![Demand::named("through-g").claim(Executed).word(0x0E, 0)]
        }
        _ => Vec::new(),
    }
}

/// The two bytes of a word.
fn halves(top: u8) -> Vec<Demand> {
    if top & 2 == 0 || !matches!(top, 0x80..=0xE7 | 0xF0..=0xF7) {
        return Vec::new();
    }
    let mut names = vec!["high-byte-00"];
    // No operand that is tried has DW1 come to a low byte alone of 00.
    if !matches!(top, 0xBE | 0xBF) {
        names.push("low-byte-00");
    }
    // Moves, logic and inputs take nothing from byte to byte.
    if matches!(top, 0x88..=0x9B | 0xA0..=0xBF | 0xD8..=0xDF | 0xF0..=0xF7) {
        names.push("between-bytes");
    }
    let named = |name: &str| Demand::named(name).claim(Executed);
    names.into_iter().map(named).collect()
}

/// Shifts: the top two bits each way, with C 0 and 1.
fn shifts(top: u8) -> Vec<Demand> {
    if !matches!(top, 0x88..=0x8F | 0xD8..=0xDF) {
        return Vec::new();
    }
    let both = |bits: u8| {
        let named = |end: &str| {
            let named = Demand::named(format!("top-{bits:02b}{end}")).claim(Executed);
            named.shifted(0xC0, bits << 6)
        };
        [
            named("").before(|state| state.flags & 0x10 == 0),
            named("-c").before(|state| state.flags & 0x10 != 0),
        ]
    };
    (0..4).flat_map(both).collect()
}

/// Odd pairs of the two-cycle codes 82-DF, and of IW and ISW.
fn pairs(top: u8) -> Vec<Demand> {
    let odd = |name: &str, bits: u32| Demand::named(name).claim(Executed).word(0x11, bits);
    match top {
        0x82..=0xDF if top & 2 != 0 => {
            let mut all = vec![odd("odd-a", 0x01), odd("odd-b", 0x10)];
            all.extend(crosswise(top));
            all
        }
        0xE2 | 0xE3 | 0xE6 | 0xE7 => vec![
            odd("odd-a", 0x01).changed(&[2, 3]),
            Demand::named("odd-a-through-g")
                .claim(Executed)
                .word(0x0F, 0x01),
        ],
        _ => Vec::new(),
    }
}

/// Crosswise pairs. Where anything is written, the first cycle changes what the second reads.
fn crosswise(top: u8) -> Vec<Demand> {
    let (even, odd) = (
        Demand::named("crosswise").claim(Executed).word(0xFF, 0x32),
        Demand::named("crosswise-odd-a")
            .claim(Executed)
            .word(0xFF, 0x23),
    );
    let mut all = match top {
        // Compare and test.
        0xB6 | 0xB7 | 0xC6 | 0xC7 => vec![even, odd],
        // Right shifts begin with the high byte.
        0xDA..=0xDF => vec![even.changed(&[3]), odd.changed(&[2])],
        _ => vec![even.changed(&[2]), odd.changed(&[3])],
    };
    let through = match top & 1 {
        0 => Demand::named("crosswise-through-g").word(0xFF, 0x01),
        _ => Demand::named("crosswise-through-g").word(0xFF, 0xD0),
    };
    all.push(through.claim(Executed));
    if matches!(top, 0x86 | 0x87 | 0xA6 | 0xA7 | 0xAE | 0xAF) {
        let failed = Demand::named("crosswise-failed").claim(Failed);
        all.push(failed.word(0xFF, 0x32));
    }
    all
}

/// IB, IW, ISB: each option, by M where it goes by M; the first that is not listed, and the last.
fn options(top: u8) -> Vec<Demand> {
    let listed = match top {
        0xE0..=0xE3 => 8,
        0xE4 | 0xE5 => 4,
        _ => return Vec::new(),
    };
    let option =
        |at: u32, end: &str| Demand::named(format!("option-{at:x}{end}")).word(0xF0, at << 4);
    let mut all = Vec::new();
    for at in 0..listed {
        let executed = option(at, "").claim(Executed);
        if top & 2 == 0 && at & 2 != 0 {
            all.push(executed.before(|state| state.m & 1 == 0));
            let odd = option(at, "-odd").claim(Executed);
            all.push(odd.before(|state| state.m & 1 == 1));
        } else {
            all.push(executed);
        }
    }
    all.extend([listed, 15].map(|at| option(at, "").claim(Refused(8))));
    if top & 2 != 0 {
        let odd = Demand::named("odd-a-option-8").claim(Refused(8));
        all.push(odd.word(0xF1, 0x81));
    }
    all
}

/// IB and IW: read-modify-write under both markings with Q1 false and true; every bit that Q1 reads.
fn markings(top: u8) -> Vec<Demand> {
    use Marking::{Cp1621b, Cp1661b};
    if !matches!(top, 0xE0..=0xE3) {
        return Vec::new();
    }
    let rmw = |name: String, option: u32, marking: Marking| {
        let named = Demand::named(name).claim(Executed).marking(marking);
        named.word(0xF0, option << 4)
    };
    let mut all = Vec::new();
    for at in 4..8 {
        let names = ["", "-q1"].map(|end| format!("option-{at}{end}"));
        let base = names.clone().map(|name| rmw(name, at, Cp1661b));
        let other = names.map(|name| rmw(format!("cp1621b-{name}"), at, Cp1621b));
        for ([low, high], goes) in [(base, false), (other, true)] {
            all.push(low.before(|state| !q1(state.tr)).keeps_bus(true));
            all.push(high.before(|state| q1(state.tr)).keeps_bus(!goes));
        }
    }
    for bit in 6..15 {
        let turned = rmw(format!("cp1621b-tr{bit}"), 4, Cp1621b).turning(bit);
        all.push(turned.before(|state| !q1(state.tr)).keeps_bus(true));
    }
    all
}

/// Each way to wait, and a wait alone.
fn waits(top: u8) -> Vec<Demand> {
    let wait = |name: &str| Demand::named(name).claim(Waits);
    let only = Demand::named("wait-only").claim(Still);
    let only = only.lines(COMPUTE | RESET, COMPUTE);
    match top {
        0xF0..=0xFB => vec![
            wait("wait-reply").lines(REPLY | BUSY, REPLY),
            wait("wait-busy").lines(REPLY | BUSY, BUSY),
            only,
        ],
        0xE0..=0xE3 | 0xFC | 0xFD => vec![wait("wait-reply").lines(REPLY, 0), only],
        _ => Vec::new(),
    }
}

/// Bits that the code does not look at.
fn ignored(top: u8) -> Vec<Demand> {
    let bits = match top {
        0x08..=0x0F => 0x7FF,
        0x70 | 0x71 => 0x0F,
        0x72 | 0x75..=0x77 | 0xE6 | 0xE7 => 0xF0,
        0x74 | 0xFF => 0xFF,
        _ => return Vec::new(),
    };
    let named = Demand::named("dont-care").claim(Executed);
    vec![named.word(bits, bits)]
}

/// NOP, where nothing hides what every word does.
fn nothing(top: u8) -> Vec<Demand> {
    if top != 0xFF {
        return Vec::new();
    }
    let mut all: Vec<Demand> = NOP.map(Demand::named).into();
    all.push(Demand::named("bit-16").word(LOAD_RR, LOAD_RR));
    let output = |bit: u32| Demand::named(format!("bit-{bit}")).word(OUTPUTS, 1 << bit);
    all.extend([18, 19, 20, 21].map(|bit| output(bit).claim(Executed)));
    all.extend(not_fetched());
    for part in ASKED {
        all.extend(ENDINGS.map(|end| Demand::named(format!("rows-{part}{end}"))));
    }
    let lines = ["rni", "i0", "i1", "i2", "i3", "i4", "i5", "i6"];
    for line in lines {
        all.extend(["", "-low"].map(|end| Demand::named(format!("rows-{line}{end}"))));
    }
    all
}
