//! Texts with one thing altered, which the check has to tell.

/// Where the columns of microcycles and of the request's kind end.
const MICROCYCLES: usize = 74;
const REQUEST: usize = 93;

/// What a line becomes, or nothing when it has not what is altered; without its text it is left away.
type Alter = fn(&str) -> Option<String>;

/// One thing altered, by its name.
pub struct Slip {
    pub name: &'static str,
    alter: Alter,
}

/// All of them.
pub fn all() -> Vec<Slip> {
    let all = HEADS.iter().chain(ATTEMPTS).chain(DETAILS);
    all.map(|&(name, alter)| Slip { name, alter }).collect()
}

impl Slip {
    /// The text with the last line altered that can be; nothing when none can.
    pub fn altered(&self, text: &str) -> Option<String> {
        let lines: Vec<&str> = text.lines().collect();
        let mut altered = lines.iter().enumerate().rev();
        let (at, line) = altered.find_map(|(at, line)| Some((at, (self.alter)(line)?)))?;
        let mut lines: Vec<&str> = lines.clone();
        match line.is_empty() {
            true => drop(lines.remove(at)),
            false => lines[at] = &line,
        }
        Some(lines.join("\n") + "\n")
    }
}

/// The number at the end of an entry of the head, one more.
fn one_more(line: &str, entry: &str) -> Option<String> {
    let number: u32 = line.strip_prefix(entry)?.trim().parse().ok()?;
    Some(format!("{entry}  {}", number + 1))
}

const HEADS: &[(&str, Alter)] = &[
    ("the attempts in the head", |line| {
        one_more(line, "  attempts   ")
    }),
    ("the microcycles in the head", |line| {
        one_more(line, "  microcycles")
    }),
    ("the answer in the head", |line| {
        let rest = line.strip_prefix("  answer       0:")?;
        Some(format!("  answer       6:{rest}"))
    }),
    ("the refused attempt in the head", |line| {
        line.starts_with("  answer").then_some(())?;
        let (text, attempt) = line.split_once(", at attempt ")?;
        Some(format!("{text}, at attempt 1{attempt}"))
    }),
];

/// The line of an attempt that was not refused.
fn attempt(line: &str) -> Option<&str> {
    let numbered = line
        .strip_prefix("  ")?
        .starts_with(|it: char| it.is_ascii_digit());
    let outcomes = ["completed", "waited", "RESET", "COMPUTE low"];
    let made = outcomes.iter().any(|outcome| line.contains(outcome));
    (numbered && made).then_some(line)
}

/// The line with the first of a text replaced by another as long.
fn instead(line: &str, old: &str, new: &str) -> Option<String> {
    let start = line.find(old)?;
    let new = format!("{new:<width$}", width = old.len());
    Some(format!(
        "{}{new}{}",
        &line[..start],
        &line[start + old.len()..]
    ))
}

/// Another digit.
fn other_digit(digit: char) -> char {
    match digit {
        '0' => '1',
        _ => '0',
    }
}

/// The line with the last of its characters another digit.
fn other_end(line: &str) -> Option<String> {
    let digit = line.chars().last().filter(char::is_ascii_hexdigit)?;
    Some(format!("{}{}", &line[..line.len() - 1], other_digit(digit)))
}

const ATTEMPTS: &[(&str, Alter)] = &[
    ("a completed attempt", |line| {
        instead(attempt(line)?, "completed", "waited")
    }),
    ("a wait", |line| instead(attempt(line)?, "waited", "RESET")),
    ("a RESET", |line| {
        instead(attempt(line)?, " RESET      ", " waited")
    }),
    ("a COMPUTE low", |line| {
        instead(attempt(line)?, "COMPUTE low", "RESET")
    }),
    ("the microcycles of an attempt", |line| {
        let (end, rest) = (attempt(line)?.get(..MICROCYCLES)?, line.get(MICROCYCLES..)?);
        Some(other_end(end)? + rest)
    }),
    ("the number of an attempt", |line| {
        let digit = attempt(line)?.chars().nth(2)?;
        Some(format!("  {}{}", other_digit(digit), &line[3..]))
    }),
    ("the address of an attempt", |line| {
        let digit = attempt(line)?.chars().nth(13)?;
        Some(format!(
            "{}{}{}",
            &line[..13],
            other_digit(digit),
            &line[14..]
        ))
    }),
    ("the mnemonic of an attempt", |line| {
        instead(attempt(line)?, " NOP ", " RFS ")
    }),
    ("the kind of a request", |line| {
        instead(attempt(line)?, "  read ", "  write ")
    }),
    ("the value of a request", |line| {
        let value = attempt(line)?.get(REQUEST..)?.trim();
        (!value.is_empty()).then(|| other_end(line)).flatten()
    }),
    ("a request of none", |line| {
        instead(attempt(line)?, "  none", "  wait")
    }),
    ("the line of an attempt is left away", |line| {
        attempt(line).map(|_| String::new())
    }),
    ("the number of a refusal", |line| {
        line.contains("refused")
            .then(|| instead(line, "8: ", "6: "))
            .flatten()
    }),
    ("the samples that are not used", |line| {
        let text = line.strip_suffix("  not used")?.trim_end();
        Some(format!("{}  not used", other_end(text)?))
    }),
];

/// The line of an attempt's changes.
fn changes(line: &str) -> Option<&str> {
    let text = line.strip_prefix("           ")?;
    let hexadecimal = text
        .chars()
        .last()
        .filter(|end| end.is_ascii_hexdigit() || *end == '-');
    let detail = !text.starts_with(' ') && !text.starts_with("sample ");
    (detail && text.split(' ').count() >= 3 && hexadecimal.is_some()).then_some(line)
}

const DETAILS: &[(&str, Alter)] = &[
    ("a value after an attempt", |line| other_end(changes(line)?)),
    ("a value before an attempt", |line| {
        let (text, after) = changes(line)?.rsplit_once(' ')?;
        Some(format!("{} {after}", other_end(text)?))
    }),
    ("the name of a change", |line| {
        instead(changes(line)?, " LC ", " RR ")
    }),
    ("a change is left away", |line| {
        changes(line)?;
        let (text, _) = line
            .rsplit_once("  ")
            .filter(|(text, _)| !text.trim().is_empty())?;
        Some(text.to_string())
    }),
    ("all changes of an attempt are left away", |line| {
        changes(line).map(|_| String::new())
    }),
    ("a change that was none", |line| {
        Some(format!("{}  modification - 0000", changes(line)?))
    }),
    ("the data of a sample", |line| {
        let data = line.strip_prefix("           sample ")?;
        let digit = other_digit(data.chars().next()?);
        Some(format!("           sample {digit}{}", &data[1..]))
    }),
    ("a line of a sample", |line| {
        line.contains(" sample ")
            .then(|| instead(line, "COMPUTE", "BUSY"))
            .flatten()
    }),
    ("a sample is left away", |line| {
        line.contains(" sample ").then(String::new)
    }),
];
