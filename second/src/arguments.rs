//! The command lines of `hfile`, `hrun` and `hscore`: what each argument may
//! be, and the one line that says which was wrong, both as the guide has them.

pub const LAST_ROOM: u32 = 16_384;
pub const LAST_INPUT: usize = 4_096;

/// Whether the graph is taken as read or hardened first.
#[derive(Clone, Copy, Debug, PartialEq, Eq)]
pub enum Mode {
    Plain,
    Hardened,
}

/// The arguments of a run; a score has the same without a fault.
#[derive(Clone, Debug, PartialEq, Eq)]
pub struct Arguments {
    pub mode: Mode,
    pub budget: u32,
    pub room: u32,
    pub fault: Option<u32>,
    pub input: Vec<u32>,
}

type Parsed<T> = Result<T, String>;

/// [plain]
pub fn file_arguments(words: &[String]) -> Parsed<Mode> {
    match words {
        [] => Ok(Mode::Hardened),
        [word] if word == "plain" => Ok(Mode::Plain),
        [word, ..] if word == "plain" => expected(2, "no more than one argument"),
        _ => expected(1, "plain, or no argument"),
    }
}

/// MODE BUDGET ROOM FAULT [WORD ..]
pub fn run_arguments(words: &[String]) -> Parsed<Arguments> {
    let mut arguments = settings(words)?;
    arguments.fault = fault(words.get(3))?;
    arguments.input = input(words, 4)?;
    Ok(arguments)
}

/// MODE BUDGET ROOM [WORD ..]
pub fn score_arguments(words: &[String]) -> Parsed<Arguments> {
    let mut arguments = settings(words)?;
    arguments.input = input(words, 3)?;
    Ok(arguments)
}

/// The three arguments that both programs begin with.
fn settings(words: &[String]) -> Parsed<Arguments> {
    let mode = mode(words.first())?;
    let budget = number(words.get(1), 2, "BUDGET", u32::MAX)?;
    let room = number(words.get(2), 3, "ROOM", LAST_ROOM)?;
    Ok(Arguments {
        mode,
        budget,
        room,
        fault: None,
        input: Vec::new(),
    })
}

fn mode(word: Option<&String>) -> Parsed<Mode> {
    match word.map(String::as_str) {
        Some("plain") => Ok(Mode::Plain),
        Some("hardened") => Ok(Mode::Hardened),
        _ => expected(1, "MODE, plain or hardened"),
    }
}

fn fault(word: Option<&String>) -> Parsed<Option<u32>> {
    match word.map(String::as_str) {
        Some("none") => Ok(None),
        Some(word) if decimal(word).is_some() => Ok(decimal(word)),
        _ => expected(4, &format!("FAULT, none or a number up to {}", u32::MAX)),
    }
}

/// The words behind the fixed arguments. Too many are told of before any of
/// them is looked at.
fn input(words: &[String], fixed: usize) -> Parsed<Vec<u32>> {
    if words.len() > fixed + LAST_INPUT {
        let first_over = fixed + LAST_INPUT + 1;
        return expected(first_over, &format!("no more than {LAST_INPUT} words"));
    }
    (fixed..words.len())
        .map(|index| number(words.get(index), index + 1, "WORD", u32::MAX))
        .collect()
}

fn number(word: Option<&String>, place: usize, name: &str, last: u32) -> Parsed<u32> {
    match word.and_then(|word| decimal(word)) {
        Some(value) if value <= last => Ok(value),
        _ => expected(place, &format!("{name}, a number up to {last}")),
    }
}

/// The line for a wrong argument, without its end; places count from 1.
fn expected<T>(place: usize, what: &str) -> Parsed<T> {
    Err(format!("argument {place}: expected {what}"))
}

/// One to ten ASCII digits with a value below 2^32; no sign, no blank.
pub fn decimal(word: &str) -> Option<u32> {
    let digits = (1..=10).contains(&word.len()) && word.bytes().all(|byte| byte.is_ascii_digit());
    digits.then(|| word.parse().ok()).flatten()
}
