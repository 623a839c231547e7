//! What a comparison was made of: how often each entry point answered what, and what has to occur.

use crate::call::{Answered, Call, Entry, Held, ENTRIES};
use crate::sides;
use second::file::LONGEST;
use second::graph::NODE_WORDS;
use std::collections::BTreeMap;

/// Counts by entry point and by what it answered.
#[derive(Default)]
pub struct Mix(BTreeMap<(Entry, What), u64>);

/// The number of a refusal, or 0, and the words for what occurred.
type What = (usize, String);

/// What a check of a table has to meet.
const TABLE_EDGES: [&str; 7] = [
    "accepted",
    "words behind",
    "one word short",
    "5 at a kind",
    "5 at a field",
    "7 of the entry",
    "8 at the last word",
];

/// What a table that is written has to meet.
const ROOM_EDGES: [&str; 4] = [
    "accepted",
    "no word to spare",
    "words behind",
    "one word short",
];

/// What a file that is written has to meet, besides what its table has to.
const FILE_EDGES: [&str; 5] = [
    "no byte lent",
    "one byte short",
    "no byte to spare",
    "bytes behind",
    "the longest file",
];

/// What each entry point has to answer at least once: the numbers of its refusals, and words that
/// `answers` and `edges` give.
const FLOORS: [(Entry, &[usize], &[&str]); 8] = [
    (Entry::Read, &[1, 2, 3, 4, 5, 6, 7, 10], &ROOM_EDGES),
    (Entry::Write, &[3, 4, 5, 6, 7, 8], &TABLE_EDGES),
    (Entry::Write, &[15], &FILE_EDGES),
    (Entry::CheckRunnable, &[3, 4, 5, 6, 7, 8], &TABLE_EDGES),
    (Entry::CheckSource, &[3, 4, 5, 6, 7, 8, 9], &TABLE_EDGES),
    (Entry::Harden, &[3, 4, 5, 6, 7, 8, 9, 11], &ROOM_EDGES),
    (
        Entry::Run,
        &[3, 4, 5, 6, 7, 8, 12],
        &[
            "returned",
            "caught",
            "spent",
            "full",
            "inverted",
            "place not reached",
        ],
    ),
    (
        Entry::Campaign,
        &[3, 4, 5, 6, 7, 8, 12, 13, 14],
        &[
            "scored",
            "some caught",
            "some late",
            "some harmless",
            "some changed",
            "some unended",
            "13 after events",
            "14, one word apart",
        ],
    ),
];

const OUTCOMES: [&str; 5] = ["", "returned", "caught", "spent", "full"];
const CLASSES: [&str; 5] = ["caught", "late", "harmless", "changed", "unended"];

impl Mix {
    pub fn add(&mut self, call: &Call, answered: &Answered) {
        for what in answers(call, answered)
            .into_iter()
            .chain(edges(call, answered))
        {
            *self.0.entry((call.entry, what)).or_default() += 1;
        }
    }

    /// What had to occur and did not.
    pub fn missing(&self) -> Vec<String> {
        let mut missing = Vec::new();
        for (entry, refusals, words) in FLOORS {
            let refusals = refusals.iter().map(|number| refused(*number));
            for what in refusals.chain(words.iter().map(|words| said(words))) {
                if !self.0.contains_key(&(entry, what.clone())) {
                    missing.push(format!("{}: {}", entry.name(), what.1));
                }
            }
        }
        missing
    }

    pub fn print(&self) {
        for entry in ENTRIES {
            let counts: Vec<String> = self
                .0
                .iter()
                .filter(|((name, _), _)| *name == entry)
                .map(|((_, what), count)| format!("{} {count}", what.1))
                .collect();
            println!("  {}: {}", entry.name(), counts.join(", "));
        }
    }
}

fn refused(number: usize) -> What {
    (number, format!("refused {number}"))
}

fn said(words: &str) -> What {
    (0, words.to_string())
}

/// The refusal, or how the call ended.
fn answers(call: &Call, answered: &Answered) -> Vec<What> {
    if answered.refusal() > 0 {
        return vec![refused(answered.refusal())];
    }
    let numbers = &answered.numbers;
    match call.entry {
        Entry::Run => vec![said(OUTCOMES[numbers[2]])],
        Entry::Campaign => {
            let counts = CLASSES.iter().zip(&numbers[3..]);
            let some = counts.filter(|(_, &count)| count > 0);
            let some = some.map(|(class, _)| said(&format!("some {class}")));
            std::iter::once(said("scored")).chain(some).collect()
        }
        _ => vec![said("accepted")],
    }
}

/// Where the call stood at an edge.
fn edges(call: &Call, answered: &Answered) -> Vec<What> {
    let edge = match call.entry {
        Entry::Read => room(call, answered, 4),
        Entry::Harden => room(call, answered, 11),
        Entry::Write | Entry::CheckRunnable | Entry::CheckSource => table(answered, call.held),
        Entry::Run => run(call, answered),
        Entry::Campaign => campaign(call, answered),
    };
    edge.into_iter()
        .chain(file(call, answered))
        .map(said)
        .collect()
}

/// Lent bytes against those that the file takes.
fn file(call: &Call, answered: &Answered) -> Vec<&'static str> {
    if call.entry != Entry::Write {
        return Vec::new();
    }
    let (bytes, size) = (call.lent.bytes.len(), answered.numbers[2]);
    let edge = match answered.refusal() {
        0 if bytes == size => Some("no byte to spare"),
        0 => Some("bytes behind"),
        15 if bytes == 0 => Some("no byte lent"),
        15 if bytes + 1 == answered.place() => Some("one byte short"),
        _ => None,
    };
    let longest = (size == LONGEST).then_some("the longest file");
    edge.into_iter().chain(longest).collect()
}

/// A lent table against the words that its graph takes.
fn room(call: &Call, answered: &Answered, short: usize) -> Option<&'static str> {
    let words = call.lent.words[0].len();
    let needed = answered.numbers[3] * NODE_WORDS;
    match answered.refusal() {
        0 if words == needed => Some("no word to spare"),
        0 => Some("words behind"),
        number if number == short && words + 1 == answered.place() => Some("one word short"),
        _ => None,
    }
}

/// A table that is read against the words of its nodes.
fn table(answered: &Answered, held: &Held) -> Option<&'static str> {
    let words = held.table.len();
    match answered.refusal() {
        0 if words > held.header.nodes * NODE_WORDS => Some("words behind"),
        4 if words + 1 == answered.place() => Some("one word short"),
        5 if answered.place().is_multiple_of(NODE_WORDS) => Some("5 at a kind"),
        5 => Some("5 at a field"),
        7 if answered.place() == 0 => Some("7 of the entry"),
        8 if answered.place() + 1 == held.header.nodes * NODE_WORDS => Some("8 at the last word"),
        _ => None,
    }
}

/// A fault against the branches that the run executed.
fn run(call: &Call, answered: &Answered) -> Option<&'static str> {
    match call.fault {
        Some(place) if place < answered.numbers[6] => Some("inverted"),
        Some(_) if answered.refusal() == 0 => Some("place not reached"),
        _ => None,
    }
}

fn campaign(call: &Call, answered: &Answered) -> Option<&'static str> {
    let (first, second) = (call.lent.words[0].len(), call.lent.words[1].len());
    match answered.refusal() {
        13 if made_events(call) => Some("13 after events"),
        14 if first.abs_diff(second) == 1 => Some("14, one word apart"),
        _ => None,
    }
}

/// Whether the undisturbed run of a campaign makes an event.
fn made_events(call: &Call) -> bool {
    let mut call = call.clone();
    call.entry = Entry::Run;
    call.lent.words.truncate(1);
    sides::second(&call).numbers[8] > 0
}
