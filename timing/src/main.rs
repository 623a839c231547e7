//! Times the proved run, campaign, hardening and writing beside the same in plain Rust or beside each
//! other, in one process, on the same input, after comparing the answers. Prints ratios, and for
//! hardening a share of a millisecond.
//!
//! `timing FILE` measures this build. The first of two builds finds no FILE and leaves its numbers
//! there; the second takes them up, prints both, and judges by the better, since where the linker
//! puts the same code moves a ratio by a fifth. Exit status 1: something that is to be reached was
//! not.

mod case;
mod proved;
mod race;
mod same;
#[cfg(feature = "shifted")]
mod shifted;

use case::{block, branches, hardened, Case, ROOM};
use race::{Entry, Race};
use same::{rust_run, rust_write, Buffers};
use second::file::LONGEST;
use second::programs::{Held, TABLE_WORDS};
use std::hint::black_box;
use std::process::ExitCode;
use std::time::{Duration, Instant};

const LOOP: &str = include_str!("../../second/bench/loop.graph");
const MIXED: &str = include_str!("../graphs/mixed.graph");

/// How long the jobs take turns.
const TIME: Duration = Duration::from_secs(20);

fn main() -> ExitCode {
    let runs = [
        Pair::new("loop", LOOP, false, 19_998),
        Pair::new("hardened loop", LOOP, true, 8_300),
        Pair::new("mixed loop", MIXED, false, 7_000),
        Pair::new("hardened mixed loop", MIXED, true, 3_500),
    ];
    let sources = [
        Source::new("branches, upward", |nodes| branches(nodes, false)),
        Source::new("branches, downward", |nodes| branches(nodes, true)),
        Source::new("one block, downward", |nodes| block(nodes, true)),
    ];
    let [upward, downward, _] = &sources;
    let files = [Files::new(upward, None), Files::new(downward, Some(1.0))];
    let mut race = Race::default();
    let mut lines = enter(&mut race, &runs, &sources, &files);
    race.run(TIME);
    let mut numbers: Vec<f64> = lines.iter().map(|line| line.measured(&race)).collect();
    lines.push(Line::rerun());
    numbers.push(rerun(&Case::new(LOOP, true, 5_000)));
    let Some(path) = std::env::args().nth(1) else {
        eprintln!("timing FILE: expected a file for the numbers of the first build");
        return ExitCode::from(2);
    };
    match std::fs::read_to_string(&path) {
        Err(_) => leave(&path, &numbers),
        Ok(text) => judge(&lines, &first_numbers(&text, numbers.len()), &numbers),
    }
}

/// Enters all that is raced, in the order of the lines.
fn enter<'a>(
    race: &mut Race<'a>,
    runs: &'a [Pair],
    sources: &'a [Source],
    files: &'a [Files],
) -> Vec<Line> {
    let mut lines = Vec::new();
    for pair in runs {
        lines.extend(pair.run(race));
    }
    for pair in runs.iter().filter(|pair| pair.hardened) {
        lines.extend(pair.campaign(race));
    }
    for source in sources {
        lines.extend(source.harden(race));
    }
    for files in files {
        lines.extend(files.write(race));
    }
    lines
}

/// The first build's numbers, one to a line, for the second.
fn leave(path: &str, numbers: &[f64]) -> ExitCode {
    #[cfg(feature = "shifted")]
    shifted::keep();
    let text: String = numbers.iter().map(|number| format!("{number}\n")).collect();
    match std::fs::write(path, text) {
        Ok(()) => ExitCode::SUCCESS,
        Err(error) => {
            eprintln!("timing: {path} cannot be written: {error}");
            ExitCode::from(2)
        }
    }
}

fn first_numbers(text: &str, count: usize) -> Vec<f64> {
    let numbers: Vec<f64> = text.lines().filter_map(|line| line.parse().ok()).collect();
    assert_eq!(
        numbers.len(),
        count,
        "the first build's numbers are not whole"
    );
    numbers
}

/// Prints both builds' numbers and whether the better one is what is to be reached.
fn judge(lines: &[Line], first: &[f64], second: &[f64]) -> ExitCode {
    println!(
        "{:<80} {:>8} {:>8}",
        "least times of each build", "first", "second"
    );
    let builds = first.iter().zip(second);
    let missed = lines
        .iter()
        .zip(builds)
        .filter(|(line, (one, other))| !line.print(**one, **other));
    ExitCode::from(u8::from(missed.count() > 0))
}

/// One line: what was measured, and what is to be reached.
struct Line {
    what: String,
    measure: Measure,
    bar: Option<Bar>,
}

enum Measure {
    Ratio(Entry, Entry),
    /// Of the times for one byte each.
    ByteRatio((Entry, usize), (Entry, usize)),
    Milliseconds(Entry),
    Apart,
}

enum Bar {
    AtMost(f64),
    AtLeast(f64),
}

impl Line {
    fn ratio(what: String, one: Entry, other: Entry, most: Option<f64>) -> Self {
        Line {
            what,
            measure: Measure::Ratio(one, other),
            bar: most.map(Bar::AtMost),
        }
    }

    /// A campaign beside the same made from the start, which is timed apart from the race.
    fn rerun() -> Self {
        Line {
            what: "campaign, hardened loop, 20004 positions: Rust from the start / proved".into(),
            measure: Measure::Apart,
            bar: Some(Bar::AtLeast(100.0)),
        }
    }

    fn measured(&self, race: &Race) -> f64 {
        match self.measure {
            Measure::Ratio(one, other) => ratio(race.time(one), race.time(other)),
            Measure::ByteRatio((one, bytes), (other, others)) => {
                ratio(race.time(one), race.time(other)) * others as f64 / bytes as f64
            }
            Measure::Milliseconds(one) => ratio(race.time(one), Duration::from_millis(1)),
            Measure::Apart => unreachable!("timed apart"),
        }
    }

    /// Prints both builds' numbers; whether the better reached the bar, if there is one.
    fn print(&self, first: f64, second: f64) -> bool {
        let (verdict, reached) = match &self.bar {
            None => (String::new(), true),
            Some(Bar::AtMost(most)) => verdict("at most", *most, first.min(second) <= *most),
            Some(Bar::AtLeast(least)) => verdict("at least", *least, first.max(second) >= *least),
        };
        println!("{:<80} {first:>8.2} {second:>8.2}   {verdict}", self.what);
        reached
    }
}

fn verdict(side: &str, bar: f64, reached: bool) -> (String, bool) {
    let word = if reached { "reached" } else { "NOT REACHED" };
    (format!("{side} {bar}: {word}"), reached)
}

/// How many times as long the one took as the other.
fn ratio(one: Duration, other: Duration) -> f64 {
    one.as_secs_f64() / other.as_secs_f64()
}

/// The growth of the time when the length grows from one to the other.
fn growth(what: &str, lengths: (u32, u32), halved: Entry, whole: Entry) -> Line {
    let longer = f64::from(lengths.1) / f64::from(lengths.0);
    let what = format!("{what}: growth of time, {longer:.3} times the length");
    Line::ratio(what, whole, halved, None)
}

/// A loop of nearly 100,000 steps, and one of half as many rounds.
struct Pair {
    name: &'static str,
    hardened: bool,
    half: Case,
    whole: Case,
}

impl Pair {
    fn new(name: &'static str, text: &str, hardened: bool, rounds: u32) -> Self {
        Pair {
            name,
            hardened,
            half: Case::new(text, hardened, rounds / 2),
            whole: Case::new(text, hardened, rounds),
        }
    }

    fn run<'a>(&'a self, race: &mut Race<'a>) -> [Line; 2] {
        let steps = (same::run(&self.half), same::run(&self.whole));
        let mut events = vec![0; ROOM];
        let proved = race.enter(move || hold(proved::run(black_box(&self.whole), &mut events, 0)));
        let mut events = vec![0; ROOM];
        let rust = race.enter(move || hold(rust_run(black_box(&self.whole), &mut events)));
        let mut events = vec![0; ROOM];
        let halved = race.enter(move || hold(proved::run(black_box(&self.half), &mut events, 0)));
        let what = format!("run, {}", self.name);
        let title = format!("{what}, {} steps: proved / Rust", steps.1);
        [
            Line::ratio(title, proved, rust, Some(1.15)),
            growth(&what, steps, halved, proved),
        ]
    }

    fn campaign<'a>(&'a self, race: &mut Race<'a>) -> [Line; 2] {
        let half = same::campaign(&self.half).positions;
        let positions = same::campaign(&self.whole).positions;
        assert!(positions >= 20_000);
        let mut buffers = Buffers::new();
        let proved = race.enter(move || hold(buffers.proved(black_box(&self.whole))));
        let mut buffers = Buffers::new();
        let rust = race.enter(move || hold(buffers.forked(black_box(&self.whole))));
        let mut buffers = Buffers::new();
        let halved = race.enter(move || hold(buffers.proved(black_box(&self.half))));
        let what = format!("campaign, {}", self.name);
        let title = format!("{what}, {positions} positions: proved / forked Rust");
        [
            Line::ratio(title, proved, rust, Some(1.0)),
            growth(&what, (half, positions), halved, proved),
        ]
    }
}

/// How many times as long a campaign takes with each disturbed run made from the start.
fn rerun(case: &Case) -> f64 {
    let (mut ours, mut theirs) = (Buffers::new(), Buffers::new());
    let score = same::campaign(case);
    assert_eq!(score.positions, 20_004);
    let proved = least(300, || hold(ours.proved(black_box(case))));
    let rust = least(3, || assert_eq!(theirs.rerun(black_box(case)), score));
    ratio(rust, proved)
}

fn least(times: u32, mut work: impl FnMut()) -> Duration {
    let timed = (0..times).map(|_| {
        let began = Instant::now();
        work();
        began.elapsed()
    });
    timed.min().expect("timed at least once")
}

/// A source of the largest size, and one half as large.
struct Source {
    name: &'static str,
    half: Held,
    whole: Held,
}

impl Source {
    fn new(name: &'static str, make: impl Fn(u32) -> Held) -> Self {
        Source {
            name,
            half: make(128),
            whole: make(256),
        }
    }

    fn harden<'a>(&'a self, race: &mut Race<'a>) -> [Line; 2] {
        same::harden(&self.half);
        let nodes = same::harden(&self.whole);
        let whole = race.enter(hardening(&self.whole));
        let halved = race.enter(hardening(&self.half));
        let what = format!("hardening 256 nodes, {}", self.name);
        let milliseconds = Line {
            what: format!("{what}, H = {nodes}: milliseconds"),
            measure: Measure::Milliseconds(whole),
            bar: Some(Bar::AtMost(0.5)),
        };
        [milliseconds, growth(&what, (128, 256), halved, whole)]
    }
}

/// The hardened graphs of a source, to be written, and how long that may take beside hardening.
struct Files<'a> {
    source: &'a Source,
    half: Held,
    whole: Held,
    most: Option<f64>,
}

impl<'s> Files<'s> {
    fn new(source: &'s Source, most: Option<f64>) -> Self {
        Files {
            source,
            half: hardened(&source.half),
            whole: hardened(&source.whole),
            most,
        }
    }

    fn write<'a>(&'a self, race: &mut Race<'a>) -> [Line; 3] {
        let (half, bytes) = (same::write(&self.half), same::write(&self.whole));
        let hardened = race.enter(hardening(&self.source.whole));
        let proved = race.enter(writing(&self.whole));
        let halved = race.enter(writing(&self.half));
        let mut out = vec![0; LONGEST];
        let rust = race.enter(move || hold(rust_write(black_box(&self.whole), &mut out)));
        let (nodes, name) = (self.whole.0.nodes, self.source.name);
        let what = format!("writing {nodes} nodes, {name}");
        let linear = Line {
            what: format!("{what}: time for a byte / with half the nodes"),
            measure: Measure::ByteRatio((proved, bytes), (halved, half)),
            bar: Some(Bar::AtMost(1.3)),
        };
        [
            Line::ratio(
                format!("{what}, {bytes} bytes: writing / hardening"),
                proved,
                hardened,
                self.most,
            ),
            linear,
            Line::ratio(format!("{what}: proved / Rust"), proved, rust, None),
        ]
    }
}

fn writing(graph: &Held) -> impl FnMut() + '_ {
    let mut out = vec![0; LONGEST];
    move || hold(proved::write(black_box(&graph.0), &graph.1, &mut out))
}

fn hardening(source: &Held) -> impl FnMut() + '_ {
    let mut out = vec![0; TABLE_WORDS];
    move || hold(proved::harden(black_box(&source.0), &source.1, &mut out))
}

fn hold<T>(answer: T) {
    black_box(answer);
}
