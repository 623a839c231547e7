//! A case: a graph with its file, sound or damaged, and the calls it is tried with, all drawn from
//! a seed and an index.

use crate::call::{Call, Entry, Held};
use crate::damage;
use crate::sides;
use linked::Header;
use second::dice::Dice;
use second::graph::{BRANCH_WORD, CATCH, NODE_WORDS, OUT};
use second::run::{run, Outcome, LAST_BUDGET};
use second::shapes::{any_shape, longest, structured, Draft};

/// What the calls of a case read.
#[derive(Clone, PartialEq, Eq)]
pub struct Material {
    file: Vec<u8>,
    /// The nodes that the file had before it was damaged.
    nodes: usize,
    input: Vec<u32>,
    plain: Held,
    hardened: Option<Held>,
    longest: Option<Held>,
    swept: Vec<Held>,
}

pub fn material(dice: &mut Dice) -> Material {
    let draft = match dice.below(12) {
        0 => late(dice),
        _ => any_shape(dice),
    };
    let file = match dice.percent(50) {
        true => draft.file(),
        false => second::damage::damaged(dice, &draft),
    };
    let plain = damage::held(dice, &draft);
    let hardened = hardened(dice, &plain);
    let longest = (dice.below(40) == 0).then(|| damage::sound(&longest(dice)));
    let sweeps = dice.below(40) == 0;
    Material {
        file,
        nodes: draft.rows.len(),
        input: input(dice),
        plain,
        hardened,
        longest,
        swept: if sweeps {
            damage::swept(dice)
        } else {
            Vec::new()
        },
    }
}

/// A program behind a branch that leads, if inverted, to a catch by way of an event.
fn late(dice: &mut Dice) -> Draft {
    let mut draft = structured(dice, 9, 20);
    let catch = draft.rows.len() as u32;
    draft.rows.push([CATCH, 0, 0, 0, 0, 0]);
    draft.rows.push([OUT, dice.below(3), 0, catch, 0, 0]);
    draft
        .rows
        .push([BRANCH_WORD, 0, 0, 0, draft.entry, catch + 1]);
    draft.entry = catch + 2;
    draft
}

/// The hardened graph of what is a source, its table of some length.
fn hardened(dice: &mut Dice, plain: &Held) -> Option<Held> {
    let needed = words_needed(plain)?;
    let mut table = vec![0; needed];
    let graph = sides::graph(&plain.header);
    let graph = second::harden::harden(&graph, &plain.table, &mut table).ok()?;
    damage::change_length(dice, &mut table);
    let header = Header {
        registers: graph.registers as usize,
        nodes: graph.nodes as usize,
        entry: graph.entry as usize,
    };
    Some(Held { header, table })
}

/// How long the hardened table is: with no room at all, 11 says so.
fn words_needed(plain: &Held) -> Option<usize> {
    let graph = sides::graph(&plain.header);
    let refusal = second::harden::harden(&graph, &plain.table, &mut []).err()?;
    (refusal.number == 11).then_some(refusal.place as usize)
}

/// How long the file of a graph is: with no room at all, 15 says so.
fn bytes_needed(held: &Held) -> Option<usize> {
    let graph = sides::graph(&held.header);
    let refusal = second::file::write(&graph, &held.table, &mut []).err()?;
    (refusal.number == 15).then_some(refusal.place as usize)
}

fn input(dice: &mut Dice) -> Vec<u32> {
    let length = match dice.below(40) {
        0 => dice.between(50, 400),
        1..=8 => 0,
        _ => dice.below(12),
    };
    junk(dice, length as usize)
}

fn junk(dice: &mut Dice, length: usize) -> Vec<u32> {
    (0..length).map(|_| dice.word()).collect()
}

/// What an undisturbed run shows.
#[derive(Clone, Copy)]
struct Facts {
    steps: usize,
    branches: usize,
    words: usize,
    returns: bool,
}

/// Words enough for nearly every run that returns.
const ROOM: usize = 2_048;

/// Steps that a run, and the runs of one campaign together, may mostly make: every number of an
/// answer is a call of its own.
const RUN_STEPS: u32 = 2_000;
const CAMPAIGN_STEPS: usize = 60_000;

/// Chooses the calls for a case's material.
struct Writer<'a> {
    dice: &'a mut Dice,
    material: &'a Material,
    calls: Vec<Call<'a>>,
}

pub fn calls<'a>(dice: &'a mut Dice, material: &'a Material) -> Vec<Call<'a>> {
    let mut writer = Writer {
        dice,
        material,
        calls: Vec::new(),
    };
    for _ in 0..2 {
        writer.read();
    }
    writer.all_of(&material.plain);
    if let Some(hardened) = &material.hardened {
        writer.all_of(hardened);
    }
    if let Some(longest) = &material.longest {
        writer.writes(longest);
    }
    for held in &material.swept {
        writer.check(held);
        writer.write_somewhere(held);
        if writer.dice.below(12) == 0 {
            writer.harden(held);
            writer.runs(held);
        }
    }
    writer.calls
}

impl<'a> Writer<'a> {
    /// A call with nothing lent, and no budget.
    fn call(&self, entry: Entry, held: &'a Held) -> Call<'a> {
        let mut call = Call::new(entry, &self.material.file, held);
        call.input = &self.material.input;
        call
    }

    /// Takes up a call that lends buffers of these lengths.
    fn add(&mut self, mut call: Call<'a>, lengths: &[usize]) {
        let lent = lengths.iter().map(|&length| junk(self.dice, length));
        call.lent.words = lent.collect();
        self.calls.push(call);
    }

    /// Takes up a call that lends so many bytes, none of them 0.
    fn write(&mut self, held: &'a Held, length: usize) {
        let mut call = self.call(Entry::Write, held);
        let lent = (0..length).map(|_| self.dice.between(1, 255) as u8);
        call.lent.bytes = lent.collect();
        self.calls.push(call);
    }

    fn read(&mut self) {
        let length = self.length(self.material.nodes * NODE_WORDS);
        self.add(self.call(Entry::Read, &self.material.plain), &[length]);
    }

    /// Writes into no bytes at all, one too few, just enough, one more, and many more.
    fn writes(&mut self, held: &'a Held) {
        let Some(needed) = bytes_needed(held) else {
            return self.write_somewhere(held);
        };
        let more = needed + self.dice.between(2, 200) as usize;
        for length in [0, needed - 1, needed, needed + 1, more] {
            self.write(held, length);
        }
    }

    fn write_somewhere(&mut self, held: &'a Held) {
        let length = self.length(bytes_needed(held).unwrap_or(24));
        self.write(held, length);
    }

    /// A buffer's length around what is needed.
    fn length(&mut self, needed: usize) -> usize {
        match self.dice.weighted(&[30, 20, 10, 24, 4, 12]) {
            0 => needed,
            1 => needed.saturating_sub(1),
            2 => needed + 1,
            3 => needed + self.dice.below(20) as usize,
            4 => 0,
            _ => self.dice.below(needed as u32 + 1) as usize,
        }
    }

    fn all_of(&mut self, held: &'a Held) {
        self.check(held);
        self.writes(held);
        self.harden(held);
        self.runs(held);
    }

    fn check(&mut self, held: &'a Held) {
        self.add(self.call(Entry::CheckRunnable, held), &[]);
        self.add(self.call(Entry::CheckSource, held), &[]);
    }

    fn harden(&mut self, held: &'a Held) {
        let needed = words_needed(held);
        for _ in 0..if needed.is_some() { 2 } else { 1 } {
            let length = self.length(needed.unwrap_or(24));
            self.add(self.call(Entry::Harden, held), &[length]);
        }
    }

    fn runs(&mut self, held: &'a Held) {
        let facts = self.facts(held);
        // What is refused is refused alike by every call.
        let times = if facts.is_some() { 3 } else { 1 };
        let facts = facts.unwrap_or(Facts {
            steps: 9,
            branches: 2,
            words: 4,
            returns: false,
        });
        for _ in 0..times {
            self.run(held, &facts);
        }
        for _ in 0..if facts.returns { 2 } else { 1 } {
            self.campaign(held, &facts);
        }
    }

    fn facts(&mut self, held: &Held) -> Option<Facts> {
        let (graph, input) = (sides::graph(&held.header), &self.material.input);
        let budget = match self.dice.below(40) {
            0 => LAST_BUDGET,
            _ => RUN_STEPS,
        };
        let mut events = [0; ROOM];
        let answer = run(&graph, &held.table, input, &mut events, budget, None).ok()?;
        Some(Facts {
            steps: answer.steps as usize,
            branches: answer.branches as usize,
            words: 2 * answer.events as usize,
            returns: matches!(answer.outcome, Outcome::Returned(_)),
        })
    }

    fn run(&mut self, held: &'a Held, facts: &Facts) {
        let mut call = self.call(Entry::Run, held);
        (call.budget, call.fault) = (self.budget(facts), self.fault(facts));
        let room = self.room(facts);
        self.add(call, &[room]);
    }

    fn campaign(&mut self, held: &'a Held, facts: &Facts) {
        let mut call = self.call(Entry::Campaign, held);
        let budget = self.budget(facts);
        call.budget = match CAMPAIGN_STEPS / facts.branches.max(1) {
            most if budget <= LAST_BUDGET as usize => budget.min(most),
            _ => budget,
        };
        let first = self.room(facts);
        let second = match self.dice.below(12) {
            0 => first + 1,
            1 => first.saturating_sub(1),
            2 => self.room(facts),
            _ => first,
        };
        self.add(call, &[first, second]);
    }

    fn budget(&mut self, facts: &Facts) -> usize {
        let steps = facts.steps;
        let last = LAST_BUDGET as usize;
        let beyond = u32::MAX as usize + 1;
        let drawn = match self.dice.weighted(&[24, 10, 8, 3, 2, 8, 30, 15]) {
            0 => steps,
            1 => steps.saturating_sub(1),
            2 => steps + 1,
            3 => 0,
            4 => 1,
            5 => self.dice.below(steps as u32 + 1) as usize,
            6 => steps + self.dice.below(100) as usize,
            _ => {
                let choices = [last, last + 1, beyond, beyond + steps, usize::MAX];
                return self.dice.pick(&choices);
            }
        };
        drawn.min(last)
    }

    fn room(&mut self, facts: &Facts) -> usize {
        let words = facts.words;
        match self.dice.weighted(&[28, 8, 6, 12, 14, 32]) {
            0 => words,
            1 => words.saturating_sub(1),
            2 => words.saturating_sub(2),
            3 => words + 1,
            4 => self.dice.below(4) as usize,
            _ => words + self.dice.below(20) as usize,
        }
    }

    fn fault(&mut self, facts: &Facts) -> Option<usize> {
        let branches = facts.branches;
        let beyond = u32::MAX as usize + 1;
        Some(match self.dice.weighted(&[28, 48, 6, 6, 6, 6]) {
            0 => return None,
            1 => self.dice.below(branches.max(1) as u32) as usize,
            2 => 0,
            3 => branches.saturating_sub(1),
            4 => branches,
            _ => {
                let choices = [beyond - 1, beyond, beyond + branches / 2, usize::MAX];
                self.dice.pick(&choices)
            }
        })
    }
}
