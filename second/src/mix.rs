//! What a comparison was made of: how often each kind of answer, graph and
//! command line occurred, and what must not be lacking.

use crate::arguments::{decimal, file_arguments, Mode};
use crate::campaign::Disturbed;
use crate::damage::{meaning, Limited};
use crate::file;
use crate::generate::Line;
use crate::graph::{field_count, row, RET};
use crate::observe::Observed;
use crate::programs::{read, FILE_BYTES};
use crate::run::Outcome;
use std::collections::{BTreeMap, BTreeSet};

/// Counts by program and by what it answered.
#[derive(Clone, Default)]
pub struct Mix(BTreeMap<String, u64>);

const CLASSES: [&str; 6] = [
    "positions",
    "caught",
    "late",
    "harmless",
    "changed",
    "unended",
];

/// From so many cases on nothing may be lacking.
const ENOUGH: u64 = 1_000;

/// How often a thousand cases have each of these at least, about half as often
/// as they do. What chance brings too seldom is made in turn.
const WANTED: [(&str, u64); 41] = [
    ("graphs: R 25 to 59", 20),
    ("graphs: N 258 to 2048", 15),
    ("files: R 0", 3),
    ("files: R 65", 3),
    ("files: R 0 or 65 and a fault behind it", 3),
    ("files: N 0", 3),
    ("files: N 2051", 3),
    ("files: longer form of R", 3),
    ("files: longer form of a port", 6),
    ("hlist: given arguments", 50),
    ("hfile: hardened written", 250),
    ("hfile: hardened refused", 200),
    ("hfile: hardened over 4,096 bytes", 7),
    ("hfile: hardened with numbers of 2 bytes", 120),
    ("hfile: hardened with numbers of 3 bytes", 50),
    ("hfile: hardened with numbers of 4 bytes", 60),
    ("hfile: hardened with numbers of 5 bytes", 150),
    ("hfile: plain written", 400),
    ("hfile: plain refused", 80),
    ("hfile: plain as long as can be", 3),
    ("hfile: bad argument 1", 50),
    ("hfile: bad argument 2", 15),
    ("hfile: bad arguments for a refused file", 8),
    ("hfile: runs read back", 110),
    ("hfile: scores read back", 150),
    ("hrun: returned register 63", 10),
    ("hrun: disturbed, over 50,000 steps, returned", 2),
    ("hrun: plainx", 2),
    ("hscore: plainx", 2),
    ("hscore: over 1,000 positions", 2),
    ("hscore: over 1,000 words of events", 2),
    (LATE_FAR, 2),
    (CHANGED_FAR, 1),
    (LONG_RETURNED, 2),
    (LATE_VALUES, 10),
    (LATE_LAST_WORD, 5),
    (LATE_AGREES, 10),
    (LATE_ENDS_ALIKE, 5),
    (CAUGHT_BEGUN, 10),
    (CHANGED_VALUES, 5),
    (CHANGED_LAST_WORD, 2),
];

const LATE_FAR: &str = "hscore: late, no difference in the first 1,000 words";
const CHANGED_FAR: &str = "hscore: changed, no difference in the first 1,000 words";
const LONG_RETURNED: &str = "hscore: disturbed, over 50,000 steps, returned";
const LATE_VALUES: &str = "hscore: late by values alone";
const LATE_LAST_WORD: &str = "hscore: late by the last word alone";
const LATE_AGREES: &str = "hscore: late, the last event agrees with the one in its place";
const LATE_ENDS_ALIKE: &str = "hscore: late, early, the last event is the reference's last";
const CAUGHT_BEGUN: &str = "hscore: caught with some of the events";
const CHANGED_VALUES: &str = "hscore: changed by values of events alone";
const CHANGED_LAST_WORD: &str = "hscore: changed by the last word of the events alone";

/// Of each number among the arguments, how often a thousand cases have it
/// in each of the odd ways.
const WANTED_ODD: u64 = 3;

/// The names of the arguments; those behind the last are words.
fn names(program: &str) -> &'static [&'static str] {
    match program {
        "hrun" => &["MODE", "BUDGET", "ROOM", "FAULT"],
        _ => &["MODE", "BUDGET", "ROOM"],
    }
}

/// All that is wanted, with its number for a thousand cases.
fn wanted() -> Vec<(String, u64)> {
    let mut all: Vec<(String, u64)> = WANTED
        .iter()
        .map(|&(name, count)| (name.to_string(), count))
        .collect();
    for program in ["hrun", "hscore"] {
        all.push((format!("{program}: blanks around MODE"), WANTED_ODD));
        for name in names(program)[1..].iter().chain(&["WORD"]) {
            for way in ["zeros before", "eleven digits in", "blanks around"] {
                all.push((format!("{program}: {way} {name}"), WANTED_ODD));
            }
        }
    }
    all
}

impl Mix {
    pub fn add(&mut self, name: &str) {
        *self.0.entry(name.to_string()).or_default() += 1;
    }

    pub fn join(&mut self, other: &Mix) {
        for (name, count) in &other.0 {
            *self.0.entry(name.clone()).or_default() += count;
        }
    }

    /// How much is wanted of so many cases, and what of it is lacking, in words.
    pub fn lacking(&self, cases: u64) -> (usize, Vec<String>) {
        if cases < ENOUGH {
            return (0, Vec::new());
        }
        let wanted = wanted();
        let lacking = wanted.iter().filter_map(|(name, count)| {
            let found = self.0.get(name).copied().unwrap_or(0);
            let least = count * (cases / ENOUGH);
            (found < least).then(|| format!("{name}: {found}, expected at least {least}"))
        });
        (wanted.len(), lacking.collect())
    }

    /// Takes up one answer; of a score, each class that is not zero.
    pub fn answer(&mut self, program: &str, text: &str) {
        let first = text.lines().next().unwrap_or("");
        let mut words = first.split(' ');
        let kind = words.next().unwrap_or("");
        match (program, kind) {
            (_, "refused") => {
                let number = words.next().unwrap_or("");
                self.add(&format!("{program}: refused {number}"));
            }
            ("hrun", _) => self.add(&format!("hrun: {kind}")),
            ("hscore", _) => {
                self.add("hscore: scored");
                for (class, count) in CLASSES.iter().zip(first.split(' ')) {
                    if count != "0" {
                        self.add(&format!("hscore: some {class}"));
                    }
                    if *class == "positions" && count.parse().is_ok_and(|count: u32| count > 1_000)
                    {
                        self.add("hscore: over 1,000 positions");
                    }
                }
            }
            _ => self.add("hlist: listed"),
        }
    }

    /// Takes up a returned run by its last step and its length.
    pub fn run(&mut self, line: &Line, file: &[u8], text: &str) {
        let Some(run) = Observed::parse(text).filter(|run| run.outcome.starts_with("returned"))
        else {
            return;
        };
        let disturbed = decimal(&line[3]).is_some_and(|place| place < run.branches);
        if disturbed && run.steps > 50_000 {
            self.add("hrun: disturbed, over 50,000 steps, returned");
        }
        if line[0] == "plain" && run.registers[63] != 0 {
            let last = read(file).map(|(_, table)| row(&table, run.node));
            if last.is_ok_and(|row| row[..2] == [RET, 63]) {
                self.add("hrun: returned register 63");
            }
        }
    }

    /// Takes up the disturbed runs of one score.
    pub fn marks(&mut self, marks: &Marks) {
        for name in &marks.0 {
            self.add(name);
        }
    }

    /// Takes up a command line by the odd ways in which it is written.
    pub fn line(&mut self, program: &str, line: &Line) {
        if program == "hlist" && !line.is_empty() {
            self.add("hlist: given arguments");
        }
        if program == "hlist" || program == "hfile" {
            return;
        }
        for (place, word) in line.iter().enumerate() {
            let name = names(program).get(place).unwrap_or(&"WORD");
            if let Some(way) = odd_way(word) {
                self.add(&format!("{program}: {way} {name}"));
            }
        }
        if line.first().is_some_and(|word| word == "plainx") {
            self.add(&format!("{program}: plainx"));
        }
    }

    /// Takes up what `hfile` makes of a file: how long it and its numbers are,
    /// or why there is nothing.
    pub fn file(&mut self, line: &Line, source: &[u8], answer: &Result<Vec<u8>, String>) {
        let graph = match file_arguments(line) {
            Ok(Mode::Hardened) => "hardened",
            Ok(Mode::Plain) => "plain",
            Err(complaint) => {
                if read(source).is_err() {
                    self.add("hfile: bad arguments for a refused file");
                }
                let place = complaint.split(':').next().unwrap_or("");
                return self.add(&format!("hfile: bad {place}"));
            }
        };
        let Ok(file) = answer else {
            return self.add(&format!("hfile: {graph} refused"));
        };
        self.add(&format!("hfile: {graph} written"));
        if file.len() > 4_096 {
            self.add(&format!("hfile: {graph} over 4,096 bytes"));
        }
        if file.len() == file::LONGEST {
            self.add(&format!("hfile: {graph} as long as can be"));
        }
        for length in 2..=5 {
            let mut numbers = file.split_inclusive(|byte| *byte < 0x80);
            if numbers.any(|number| number.len() == length) {
                self.add(&format!("hfile: {graph} with numbers of {length} bytes"));
            }
        }
    }

    /// Takes up a hardened file that was read back, by what its source answers.
    pub fn read_back(&mut self, program: &str, answer: &[u8]) {
        self.add(match (program, answer.starts_with(b"refused")) {
            ("hrun", false) => "hfile: runs read back",
            ("hrun", true) => "hfile: refused runs read back",
            (_, false) => "hfile: scores read back",
            (_, true) => "hfile: refused scores read back",
        });
    }

    /// Takes up a graph file by the limits it touches.
    pub fn graph(&mut self, file: &[u8]) {
        if file.len() > FILE_BYTES {
            self.add("graphs: longer than the first bytes");
        }
        let Ok((graph, _)) = read(file) else {
            self.header(file);
            if let Some(role) = longer_form(file) {
                self.add(&format!("files: longer form of {role}"));
            }
            return self.add("graphs: refused by the reader");
        };
        self.add(match graph.nodes {
            ..=255 => "graphs: N up to 255",
            256 => "graphs: N 256",
            257 => "graphs: N 257",
            258..=2048 => "graphs: N 258 to 2048",
            2049 => "graphs: N 2049",
            _ => "graphs: N 2050",
        });
        self.add(match graph.registers {
            ..=24 => "graphs: R up to 24",
            25..=59 => "graphs: R 25 to 59",
            60 | 61 => "graphs: R 60 or 61",
            62 => "graphs: R 62",
            _ => "graphs: R 63 or 64",
        });
    }

    /// Takes up a file whose R or N is beyond its range.
    fn header(&mut self, file: &[u8]) {
        let Ok((registers, next)) = file::number(file, 0) else {
            return;
        };
        if registers == 0 || registers == 65 {
            self.add(&format!("files: R {registers}"));
            let in_range = [&[64], &file[next..]].concat();
            if read(&in_range).is_err() {
                self.add("files: R 0 or 65 and a fault behind it");
            }
        }
        if let Ok((nodes @ (0 | 2051), _)) = file::number(file, next) {
            self.add(&format!("files: N {nodes}"));
        }
    }

    pub fn print(&self) {
        let mut program = "";
        for (name, count) in &self.0 {
            let (this, what) = name.split_once(": ").unwrap_or(("", name));
            if this != program {
                print!("{}  {this}:", if program.is_empty() { "" } else { "\n" });
                program = this;
            } else {
                print!(",");
            }
            print!(" {what} {count}");
        }
        println!();
    }
}

/// An argument that is right, or would be but for the way it is written.
fn odd_way(word: &str) -> Option<&'static str> {
    let bare = word.trim();
    if bare != word {
        let good = ["plain", "hardened", "none"].contains(&bare) || decimal(bare).is_some();
        return good.then_some("blanks around");
    }
    if word.len() == 11 && word.starts_with('0') && decimal(&word[1..]).is_some() {
        return Some("eleven digits in");
    }
    let zeros = word.len() > 1 && word.starts_with('0') && decimal(word).is_some();
    zeros.then_some("zeros before")
}

/// What the first number stands for of a file that would be accepted, were
/// that number in its shortest form.
fn longer_form(file: &[u8]) -> Option<&'static str> {
    let (mut numbers, mut longer, mut next) = (Vec::new(), None, 0);
    while next < file.len() {
        let length = 1 + file[next..]
            .iter()
            .take_while(|&&byte| byte >= 0x80)
            .count();
        let groups = file.get(next..next + length).filter(|_| length <= 5)?;
        let value = groups
            .iter()
            .rev()
            .fold(0u64, |value, byte| value << 7 | u64::from(byte & 0x7f));
        let value = u32::try_from(value).ok()?;
        if length > 1 && groups[length - 1] == 0 {
            longer = longer.or(Some(numbers.len()));
        }
        numbers.push(value);
        next += length;
    }
    let longer = longer?;
    read(&file::encode(&numbers)).ok()?;
    Some(role(&numbers, longer))
}

/// What a number of an accepted file stands for.
fn role(numbers: &[u32], place: usize) -> &'static str {
    if place < 3 {
        return ["R", "N", "the entry"][place];
    }
    let mut first = 3;
    while first + field_count(numbers[first]) < place {
        first += 1 + field_count(numbers[first]);
    }
    match meaning(numbers[first], place - first) {
        Some(Limited::Port) => "a port",
        _ => "another field",
    }
}

/// What stood out in the disturbed runs of one campaign.
#[derive(Default)]
pub struct Marks(BTreeSet<&'static str>);

impl Marks {
    pub fn see(&mut self, run: &Disturbed) {
        if run.expected.len() > 1_000 {
            self.0.insert("hscore: over 1,000 words of events");
        }
        let prefix = run.expected.starts_with(run.events);
        match run.answer.outcome {
            Outcome::Caught if prefix => self.caught(run),
            Outcome::Caught => self.late(run),
            outcome @ Outcome::Returned(_) => {
                if run.answer.steps > 50_000 {
                    self.0.insert(LONG_RETURNED);
                }
                if outcome == run.reference.outcome && run.events.len() == run.expected.len() {
                    self.differs(run, [CHANGED_FAR, CHANGED_VALUES, CHANGED_LAST_WORD]);
                }
            }
            _ => (),
        }
    }

    fn caught(&mut self, run: &Disturbed) {
        if !run.events.is_empty() && run.events.len() < run.expected.len() {
            self.0.insert(CAUGHT_BEGUN);
        }
    }

    fn late(&mut self, run: &Disturbed) {
        self.differs(run, [LATE_FAR, LATE_VALUES, LATE_LAST_WORD]);
        let (events, expected) = (run.events, run.expected);
        let last = &events[events.len() - 2..];
        let here = expected.get(events.len() - 2..events.len());
        if here == Some(last) {
            self.0.insert(LATE_AGREES);
        }
        if events.len() < expected.len() && expected.ends_with(last) && here != Some(last) {
            self.0.insert(LATE_ENDS_ALIKE);
        }
    }

    /// How events that are no more than the reference's differ from it: not
    /// in the first 1,000 words, in values alone, in the last word alone.
    fn differs(&mut self, run: &Disturbed, [far, values, last_word]: [&'static str; 3]) {
        let pairs = run.events.iter().zip(run.expected).enumerate();
        let mut differing = pairs
            .filter(|(_, (word, expected))| word != expected)
            .map(|(place, _)| place);
        let Some(first) = differing.next() else {
            return;
        };
        if run.events.len() > run.expected.len() {
            return;
        }
        if first >= 1_000 {
            self.0.insert(far);
        }
        // Values stand at odd places.
        if first % 2 == 1 && differing.all(|place| place % 2 == 1) {
            self.0.insert(values);
        }
        if first + 1 == run.events.len() {
            self.0.insert(last_word);
        }
    }
}

#[cfg(test)]
mod tests {
    use super::*;

    #[test]
    fn nothing_met_is_everything_lacking() {
        let (wanted, lacking) = Mix::default().lacking(1_000);
        assert_eq!(wanted, lacking.len());
        assert!(wanted > WANTED.len());
        assert_eq!(Mix::default().lacking(999), (0, Vec::new()));
    }

    #[test]
    fn the_floor_grows_with_the_cases() {
        let mut mix = Mix::default();
        for (name, count) in wanted() {
            (0..count).for_each(|_| mix.add(&name));
        }
        assert!(mix.lacking(1_999).1.is_empty());
        assert_eq!(mix.lacking(2_000).1.len(), wanted().len());
    }

    #[test]
    fn files_by_their_length_and_their_numbers() {
        let mut mix = Mix::default();
        let plain = vec!["plain".to_string()];
        let file = [&[0x80, 1][..], &[0xff, 0xff, 0xff, 0xff, 0x0f], &[0; 4_089]].concat();
        mix.file(&plain, &file, &Ok(file.clone()));
        mix.file(&plain, &file, &Ok([&file[..], &[0]].concat()));
        mix.file(&Vec::new(), &file, &Ok(vec![0; file::LONGEST]));
        mix.file(&Vec::new(), &[], &Err("refused 1 0".to_string()));
        mix.file(&["plain", ""].map(String::from).to_vec(), &[], &Ok(vec![]));
        let seen: Vec<(&str, u64)> = mix.0.iter().map(|(name, n)| (&name[7..], *n)).collect();
        let expected = [
            ("bad argument 2", 1),
            ("bad arguments for a refused file", 1),
            ("hardened as long as can be", 1),
            ("hardened over 4,096 bytes", 1),
            ("hardened refused", 1),
            ("hardened written", 1),
            ("plain over 4,096 bytes", 1),
            ("plain with numbers of 2 bytes", 2),
            ("plain with numbers of 5 bytes", 2),
            ("plain written", 2),
        ];
        assert_eq!(seen, expected);
    }

    #[test]
    fn longer_forms_by_what_they_stand_for() {
        assert_eq!(longer_form(&[0x81, 0, 1, 0, 7, 0]), Some("R"));
        let port = [1, 2, 0, 6, 0x81, 0x80, 0, 0, 1, 7, 0];
        assert_eq!(longer_form(&port), Some("a port"));
        assert_eq!(longer_form(&[1, 1, 0, 7, 0x80, 0]), Some("another field"));
        assert_eq!(longer_form(&[1, 1, 0, 7, 0]), None);
        assert_eq!(longer_form(&[0x81, 0, 1, 0, 9, 0]), None);
    }

    #[test]
    fn odd_ways() {
        assert_eq!(odd_way("007"), Some("zeros before"));
        assert_eq!(odd_way("00000000007"), Some("eleven digits in"));
        assert_eq!(odd_way(" none"), Some("blanks around"));
        for usual in ["0", "7", "none", "4294967295", "x ", ""] {
            assert_eq!(odd_way(usual), None);
        }
    }
}
