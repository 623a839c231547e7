//! Compares the proved entry points over files and tables, linked as a static library, with the
//! second program's: on generated tables, headers and buffer lengths, every number of the answer and
//! every word or byte of every lent buffer. What was written is read again, and what was read is
//! written again. Exit status 1: something differed, or did not occur.

mod back;
mod call;
mod cases;
mod damage;
mod lent;
mod mix;
mod sides;

use call::{Answered, Call};
use mix::Mix;
use second::dice::Dice;
use std::process::ExitCode;
use std::thread;

const USAGE: &str = "expected one of:
  tables compare CASES SEED ..
  tables case SEED INDEX";

/// Reports beyond this many are counted and not printed.
const REPORTS: u64 = 10;

/// From so many cases on everything has to occur that can.
const MANY: u64 = 1_000;

fn main() -> ExitCode {
    let words: Vec<String> = std::env::args().skip(1).collect();
    let numbers: Option<Vec<u64>> = words.iter().skip(1).map(|word| word.parse().ok()).collect();
    let command = words.first().map(String::as_str);
    let passed = match (command, numbers.as_deref()) {
        (Some("compare"), Some([cases, seeds @ ..])) if !seeds.is_empty() => compare(*cases, seeds),
        (Some("case"), Some([seed, index])) => show(*seed, *index),
        _ => {
            eprintln!("{USAGE}");
            return ExitCode::from(2);
        }
    };
    ExitCode::from(u8::from(!passed))
}

/// What has been compared so far.
#[derive(Default)]
struct Tally {
    passed: u64,
    failed: u64,
    mix: Mix,
}

/// Every case of every seed, the seeds side by side; true when nothing differed or was missing.
fn compare(cases: u64, seeds: &[u64]) -> bool {
    let (mut passed, mut failed) = (0, 0);
    thread::scope(|scope| {
        let start = |&seed| (seed, scope.spawn(move || Tally::of_seed(cases, seed)));
        let started: Vec<_> = seeds.iter().map(start).collect();
        for (seed, worker) in started {
            let tally = worker.join().expect("a worker that ends by itself");
            println!("seed {seed}, {cases} cases, the mix of answers:");
            tally.mix.print();
            passed += tally.passed;
            failed += tally.failed;
        }
    });
    println!("{passed} passed, {failed} failed");
    failed == 0
}

/// One case, each call with its answer.
fn show(seed: u64, index: u64) -> bool {
    let mut tally = Tally::default();
    let print = |call: &Call, answered: &Answered| println!("{call}\n  answer {answered}");
    tally.case(seed, index, print);
    println!("{} passed, {} failed", tally.passed, tally.failed);
    tally.failed == 0
}

impl Tally {
    fn of_seed(cases: u64, seed: u64) -> Self {
        let mut tally = Tally::default();
        for index in 0..cases {
            tally.case(seed, index, |_, _| ());
        }
        if cases >= MANY {
            for what in tally.mix.missing() {
                tally.fail(format!("DID NOT OCCUR with seed {seed}: {what}"));
            }
        }
        tally
    }

    fn case(&mut self, seed: u64, index: u64, seen: impl Fn(&Call, &Answered)) {
        let mut dice = Dice::new(seed, index);
        let material = cases::material(&mut dice);
        let before = material.clone();
        let again = format!("again: tables/target/release/tables case {seed} {index}");
        for (number, call) in cases::calls(&mut dice, &material).iter().enumerate() {
            let expected = sides::second(call);
            seen(call, &expected);
            self.mix.add(call, &expected);
            for tried in tried(call, &expected) {
                match tried {
                    Ok(()) => self.passed += 1,
                    Err(message) => self.fail(format!(
                        "DIFFERENCE seed {seed} index {index} call {number}: {message}\n  {call}\n  {again}"
                    )),
                }
            }
        }
        if material != before {
            self.fail(format!(
                "DIFFERENCE seed {seed} index {index}: what was only to be read changed\n  {again}"
            ));
        }
    }

    /// Told at once: a later call may not come back.
    fn fail(&mut self, report: String) {
        self.failed += 1;
        if self.failed <= REPORTS {
            println!("{report}");
        }
    }
}

/// Whether the proved side answers as the second does, and then whether what it read or wrote
/// comes back.
fn tried(call: &Call, expected: &Answered) -> Vec<Result<(), String>> {
    let answers = answers(call, expected);
    let back = match answers {
        Ok(()) => back::comes_back(call, expected),
        Err(_) => None,
    };
    std::iter::once(answers).chain(back).collect()
}

fn answers(call: &Call, expected: &Answered) -> Result<(), String> {
    let answered = sides::proved(call)?;
    if answered == *expected {
        return Ok(());
    }
    let first = first_difference(&answered, expected);
    Err(format!("{first}\n  proved {answered}\n  second {expected}"))
}

fn first_difference(one: &Answered, other: &Answered) -> String {
    if let Some(different) = different(&one.numbers, &other.numbers) {
        return format!("answer, number {different}");
    }
    let words = one.lent.words.iter().zip(&other.lent.words);
    for (buffer, (a, b)) in words.enumerate() {
        if let Some(different) = different(a, b) {
            return format!("lent buffer {buffer}, word {different}");
        }
    }
    match different(&one.lent.bytes, &other.lent.bytes) {
        Some(different) => format!("lent bytes, byte {different}"),
        None => "something of another length".to_string(),
    }
}

/// The first place at which two lists differ, and what stands there.
fn different<T: PartialEq + std::fmt::Display>(one: &[T], other: &[T]) -> Option<String> {
    let place = one.iter().zip(other).position(|(a, b)| a != b)?;
    let (a, b) = (&one[place], &other[place]);
    Some(format!("{place}: proved {a}, second {b}"))
}
