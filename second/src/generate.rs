//! A case: one graph file and the command lines it is tried with, all drawn
//! from a seed and an index.

use crate::arguments::{LAST_INPUT, LAST_ROOM};
use crate::damage::damaged;
use crate::dice::Dice;
use crate::programs::{read, read_hardened, Held};
use crate::run::{run, Outcome, LAST_BUDGET};
use crate::shapes::any_shape;
use crate::special::{purpose, special_file, Purpose};

/// The words of one command line.
pub type Line = Vec<String>;

pub struct Case {
    pub seed: u64,
    pub index: u64,
    pub file: Vec<u8>,
    pub input: Vec<u32>,
    pub lists: Vec<Line>,
    pub files: Vec<Line>,
    pub runs: Vec<Line>,
    pub scores: Vec<Line>,
}

impl Case {
    /// Every command line with the program that it is for.
    pub fn lines(&self) -> impl Iterator<Item = (&'static str, &Line)> {
        let lists = self.lists.iter().map(|line| ("hlist", line));
        let files = self.files.iter().map(|line| ("hfile", line));
        let runs = self.runs.iter().map(|line| ("hrun", line));
        let scores = self.scores.iter().map(|line| ("hscore", line));
        lists.chain(files).chain(runs).chain(scores)
    }
}

/// What an undisturbed run with all the budget and room shows.
#[derive(Clone, Copy)]
struct Facts {
    steps: u32,
    branches: u32,
    words: u32,
    returns: bool,
}

pub fn case(seed: u64, index: u64) -> Case {
    let mut dice = Dice::new(seed, index);
    let purpose = purpose(index);
    let file = match purpose {
        Some(purpose) => special_file(&mut dice, purpose),
        None => graph_file(&mut dice),
    };
    let input = input(&mut dice);
    let plain = read(&file).ok().map(|held| facts(&held, &input));
    let hardened = read_hardened(&file).ok().map(|held| facts(&held, &input));
    let mut writer = Writer {
        dice: &mut dice,
        input: &input,
        plain,
        hardened,
        index,
        purpose: purpose.map(|(purpose, _)| purpose),
    };
    let lists = writer.lists();
    let files = writer.files();
    let runs = writer.runs();
    let scores = writer.scores();
    Case {
        seed,
        index,
        file,
        input,
        lists,
        files,
        runs,
        scores,
    }
}

fn graph_file(dice: &mut Dice) -> Vec<u8> {
    let draft = any_shape(dice);
    // At the longest file what follows it matters most.
    let share = if draft.rows.len() < 2050 { 18 } else { 60 };
    if dice.percent(share) {
        damaged(dice, &draft)
    } else {
        draft.file()
    }
}

/// Mostly few words, now and then as many as the programs take.
fn input(dice: &mut Dice) -> Vec<u32> {
    let length = match dice.below(200) {
        0 => LAST_INPUT as u32,
        1..=5 => dice.between(50, 400),
        6..=40 => 0,
        _ => dice.below(12),
    };
    (0..length).map(|_| dice.word()).collect()
}

fn facts((graph, table): &Held, input: &[u32]) -> Facts {
    let mut buffer = vec![0; LAST_ROOM as usize];
    let answer = run(graph, table, input, &mut buffer, LAST_BUDGET, None)
        .expect("a graph that was read and a budget within its limit");
    Facts {
        steps: answer.steps,
        branches: answer.branches,
        words: 2 * answer.events,
        returns: matches!(answer.outcome, Outcome::Returned(_)),
    }
}

/// Weights of the budgets: exact, one less, one more, 0, 1, below, the limit, above.
const RUN_BUDGETS: [u32; 8] = [16, 8, 6, 3, 3, 10, 14, 40];
const SCORE_BUDGETS: [u32; 8] = [16, 3, 6, 1, 1, 2, 12, 60];
/// Weights of the rooms: exact, one less, two less, one more, up to 3, odd, the limit, above.
const RUN_ROOMS: [u32; 8] = [12, 5, 4, 8, 12, 6, 5, 48];
const SCORE_ROOMS: [u32; 8] = [16, 3, 2, 8, 4, 5, 6, 60];

/// Bad numbers that are more than a good one written oddly.
const BAD_NUMBERS: [&str; 10] = [
    "",
    "-1",
    "+5",
    "4294967296",
    "1x",
    "99999999999",
    "0x10",
    "1.5",
    "none ",
    "٣",
];

/// Bad command lines of `hfile`: words that are nearly the one it takes, and
/// more than one.
const BAD_FILE_LINES: [&[&str]; 18] = [
    &["hardened"],
    &["plain", "plain"],
    &[""],
    &["Plain"],
    &["plainn"],
    &["plain", ""],
    &["plai"],
    &["plain "],
    &["hardened", "plain"],
    &["plain", "x", "y"],
    &[" plain"],
    &["plainplainplainplain"],
    &["", "plain"],
    &["plain\n"],
    &["plainplainplain"],
    &["plainplainplainp"],
    &["none"],
    &["--help"],
];

/// Chooses the command lines for a file from what its runs show.
struct Writer<'a> {
    dice: &'a mut Dice,
    input: &'a [u32],
    plain: Option<Facts>,
    hardened: Option<Facts>,
    index: u64,
    purpose: Option<Purpose>,
}

impl Writer<'_> {
    /// `hlist` takes no arguments and looks at none.
    fn lists(&mut self) -> Vec<Line> {
        let mut lines = vec![Vec::new()];
        if self.index % 10 == 3 {
            let words = ["plain", "hardened", "100", "", "none", "-", "--help", "x y"];
            let count = self.dice.between(1, 4);
            let line = (0..count).map(|_| self.dice.pick(&words).to_string());
            lines.push(line.collect());
        }
        lines
    }

    /// `hfile` writes the graph hardened and as it is; in turn it is given a
    /// bad command line.
    fn files(&self) -> Vec<Line> {
        let mut lines = vec![Vec::new(), vec!["plain".to_string()]];
        if self.index % 7 == 3 {
            lines.push(bad_file_line(self.index as usize / 7));
        }
        lines
    }

    fn runs(&mut self) -> Vec<Line> {
        // A file that the reader refuses answers alike on every line.
        let count = if self.plain.is_some() { 4 } else { 1 };
        let mut lines: Vec<Line> = (0..count).map(|_| self.run()).collect();
        if self.dice.below(30) == 0 {
            lines.extend(self.run_at_each_place());
        }
        lines.extend(self.special_run());
        if self.oddly(0) {
            let line = self.run();
            lines.push(self.odd(line, 4));
        }
        if self.dice.percent(3) {
            let line = self.run();
            lines.push(self.too_few_or_many(line, 4));
        }
        lines
    }

    fn scores(&mut self) -> Vec<Line> {
        // What does not return is scored once, to be refused.
        let count = match self.plain {
            Some(facts) if facts.returns => 3,
            _ => 1,
        };
        let mut lines: Vec<Line> = (0..count).map(|_| self.score()).collect();
        lines.extend(self.special_score());
        if self.oddly(1) {
            let line = self.score();
            lines.push(self.odd(line, 3));
        }
        if self.dice.percent(3) {
            let line = self.score();
            lines.push(self.too_few_or_many(line, 3));
        }
        lines
    }

    /// Budget and room for all that the disturbed runs of a special case do.
    fn special_numbers(&mut self) -> Option<[u32; 2]> {
        let (purpose, facts) = (self.purpose?, self.plain?);
        let budget = match purpose {
            Purpose::Long => LAST_BUDGET,
            _ => facts.steps + self.dice.between(6, 40),
        };
        let room = facts.words + self.dice.between(2, 40);
        Some([budget.min(LAST_BUDGET), room.min(LAST_ROOM)])
    }

    fn special_run(&mut self) -> Option<Line> {
        let numbers = self.special_numbers()?;
        let branches = self.plain?.branches;
        let fault = match self.purpose? {
            Purpose::LastRegister => "none".to_string(),
            Purpose::Long => (branches - 1 - self.dice.below(branches.min(2))).to_string(),
            _ => self.dice.below(branches.max(1)).to_string(),
        };
        Some(self.line("plain", &numbers, Some(fault)))
    }

    fn special_score(&mut self) -> Option<Line> {
        match self.purpose? {
            Purpose::OneEvent | Purpose::Many | Purpose::Long => {
                let numbers = self.special_numbers()?;
                Some(self.line("plain", &numbers, None))
            }
            _ => None,
        }
    }

    /// What is no source is seldom hardened: it would only be refused again.
    fn mode(&mut self) -> (&'static str, Option<Facts>) {
        let plain = if self.hardened.is_some() { 45 } else { 85 };
        if self.dice.percent(plain) {
            ("plain", self.plain)
        } else {
            ("hardened", self.hardened)
        }
    }

    fn run(&mut self) -> Line {
        let (mode, facts) = self.mode();
        let facts = facts.unwrap_or(self.some_facts());
        let budget = self.budget(&facts, RUN_BUDGETS);
        let room = self.room(&facts, RUN_ROOMS);
        let fault = self.fault(&facts);
        self.line(mode, &[budget, room], Some(fault))
    }

    /// Every place of a short run, and the one after the last.
    fn run_at_each_place(&mut self) -> Vec<Line> {
        let (mode, facts) = self.mode();
        let Some(facts) = facts.filter(|facts| facts.branches <= 24) else {
            return Vec::new();
        };
        let room = self.room(&facts, SCORE_ROOMS);
        let budget = (facts.steps + self.dice.below(40)).min(LAST_BUDGET);
        (0..=facts.branches)
            .map(|place| self.line(mode, &[budget, room], Some(place.to_string())))
            .collect()
    }

    fn score(&mut self) -> Line {
        let (mode, facts) = self.mode();
        let facts = facts.unwrap_or(self.some_facts());
        let wanted = self.budget(&facts, SCORE_BUDGETS);
        let budget = self.affordable(mode, &facts, wanted);
        let room = self.room(&facts, SCORE_ROOMS);
        self.line(mode, &[budget, room], None)
    }

    /// Runs from the start cost positions times steps; beyond a cost the
    /// budget comes down, in the worst case below what the run needs.
    fn affordable(&mut self, mode: &str, facts: &Facts, budget: u32) -> u32 {
        if budget > LAST_BUDGET || !facts.returns {
            return budget;
        }
        let cost: u32 = match self.dice.below(300) {
            0 => 40_000_000,
            _ => 1_000_000,
        };
        let each = cost / facts.branches.max(1);
        // A hardened graph is caught at once; a plain one may use all its budget.
        let dear = match mode {
            "hardened" => facts.steps > 2 * each,
            _ => budget > each,
        };
        if dear {
            budget.min(each)
        } else {
            budget
        }
    }

    /// Numbers to draw around when a file has no run.
    fn some_facts(&mut self) -> Facts {
        Facts {
            steps: self.dice.below(50),
            branches: self.dice.below(10),
            words: 2 * self.dice.below(5),
            returns: false,
        }
    }

    fn budget(&mut self, facts: &Facts, weights: [u32; 8]) -> u32 {
        let steps = facts.steps;
        let drawn = match self.dice.weighted(&weights) {
            0 => steps,
            1 => steps.saturating_sub(1),
            2 => steps + 1,
            3 => 0,
            4 => 1,
            5 => self.dice.below(steps + 1),
            6 => {
                return self
                    .dice
                    .pick(&[100_000, 100_000, 100_000, 100_001, u32::MAX])
            }
            _ => steps + self.dice.below(300),
        };
        drawn.min(LAST_BUDGET)
    }

    fn room(&mut self, facts: &Facts, weights: [u32; 8]) -> u32 {
        let words = facts.words;
        let drawn = match self.dice.weighted(&weights) {
            0 => words,
            1 => words.saturating_sub(1),
            2 => words.saturating_sub(2),
            3 => words + 1,
            4 => self.dice.below(4),
            5 => 2 * self.dice.below(60) + 1,
            6 => LAST_ROOM,
            _ => words + self.dice.below(64),
        };
        drawn.min(LAST_ROOM)
    }

    fn fault(&mut self, facts: &Facts) -> String {
        let branches = facts.branches;
        match self.dice.weighted(&[30, 50, 6, 6, 4, 4]) {
            0 => return "none".to_string(),
            1 => self.dice.below(branches.max(1)),
            2 => branches,
            3 => branches.saturating_sub(1),
            4 => 0,
            _ => self
                .dice
                .pick(&[u32::MAX, u32::MAX - 1, 100_000, branches + 1]),
        }
        .to_string()
    }

    fn line(&mut self, mode: &str, numbers: &[u32], fault: Option<String>) -> Line {
        let mut line = vec![mode.to_string()];
        line.extend(numbers.iter().map(u32::to_string));
        line.extend(fault);
        line.extend(self.input.iter().map(u32::to_string));
        line
    }

    /// Whether it is a program's turn to get an odd command line.
    fn oddly(&self, turn: u64) -> bool {
        self.index % 3 == turn
    }

    /// Writes one argument in a way of its own; place and way are in turn.
    fn odd(&mut self, mut line: Line, fixed: usize) -> Line {
        let turn = (self.index / 3) as usize;
        let (mut place, turn) = (turn % (fixed + 1), turn / (fixed + 1));
        let (way, again) = (turn % 5, turn / 5 % 2 == 1);
        if place == fixed {
            place = self.dice.between(fixed as u32, line.len() as u32) as usize;
            line.insert(place, self.dice.below(1 << 20).to_string());
        }
        let word = line[place].clone();
        line[place] = match (place, way) {
            (0, 0) if again => "plainx".to_string(),
            (0, _) => self.odd_mode(way, &word),
            (_, 0 | 1) => {
                let digits = match way {
                    0 => self.dice.between(word.len() as u32 + 1, 11).min(10),
                    _ if again => self.dice.pick(&[12, 15, 16, 17, 266]),
                    _ => 11,
                };
                let number = if word == "none" { "0" } else { &word };
                format!("{number:0>width$}", width = digits as usize)
            }
            (_, 2 | 3) => self.blanks(way, &word),
            (2, _) if self.dice.percent(40) => "16385".to_string(),
            _ => self.dice.pick(&BAD_NUMBERS).to_string(),
        };
        line
    }

    fn odd_mode(&mut self, way: usize, word: &str) -> String {
        match way {
            0 => format!("{word}x"),
            // Too long by as much as a byte can count.
            1 => format!("{word:x<width$}", width = word.len() + 256),
            2 | 3 => self.blanks(way, word),
            _ => self
                .dice
                .pick(&["Plain", "", "hard", "plai", "0", "plained"])
                .to_string(),
        }
    }

    fn blanks(&mut self, way: usize, word: &str) -> String {
        let blank = self.dice.pick(&[" ", " ", "\t", "\n"]);
        match way {
            2 => format!("{blank}{word}"),
            _ => format!("{word}{blank}"),
        }
    }

    /// Takes some arguments away, or gives a word too many, at times with
    /// another wrong one before it.
    fn too_few_or_many(&mut self, mut line: Line, fixed: usize) -> Line {
        if self.dice.percent(60) {
            line.truncate(self.dice.below(fixed as u32) as usize);
            return line;
        }
        let over = self.dice.between(1, 3) as usize;
        line.resize(fixed + LAST_INPUT + over, "7".to_string());
        if self.dice.percent(50) {
            let place = self.dice.below(fixed as u32 + 2) as usize;
            line[place] = "x".to_string();
        }
        line
    }
}

fn bad_file_line(turn: usize) -> Line {
    let turn = turn % (BAD_FILE_LINES.len() + 3);
    if let Some(words) = BAD_FILE_LINES.get(turn) {
        return words.iter().map(|word| word.to_string()).collect();
    }
    let plain = "plain".to_string();
    // To a byte that counts them, these are five letters, no word and one.
    match turn - BAD_FILE_LINES.len() {
        0 => vec![plain + &"n".repeat(256)],
        1 => vec![plain; 256],
        _ => vec![plain; 257],
    }
}

#[cfg(test)]
mod tests {
    use super::*;
    use crate::campaign::campaign;
    use crate::fast::{campaign_forked, campaign_rerun, run_fast};
    use crate::file;
    use crate::programs::hfile;
    use crate::text::{assemble, show};

    const CASES: u64 = 400;

    #[test]
    fn a_case_is_its_seed_and_index() {
        for index in 0..20 {
            let (one, other) = (case(7, index), case(7, index));
            assert_eq!(one.file, other.file);
            assert!(one.lines().eq(other.lines()));
        }
        assert_ne!(case(7, 0).file, case(8, 0).file);
    }

    #[test]
    fn every_bad_line_of_hfile_is_bad() {
        for turn in 0..BAD_FILE_LINES.len() + 3 {
            let line = bad_file_line(turn);
            let place = if line[0] == "plain" { 2 } else { 1 };
            let complaint = hfile(&line, &[]).unwrap_err();
            assert!(complaint.starts_with(&format!("argument {place}:")));
        }
    }

    #[test]
    fn the_fast_run_answers_alike() {
        for index in 0..CASES {
            let case = case(1, index);
            for (graph, table) in held(&case.file) {
                for fault in [None, Some(0), Some(3), Some(50)] {
                    let (mut one, mut other) = (vec![1; 31], vec![1; 31]);
                    let input = &case.input;
                    let plain = run(&graph, &table, input, &mut one, 900, fault);
                    let fast = run_fast(&graph, &table, input, &mut other, 900, fault);
                    assert_eq!((plain, one), (fast, other), "case {index}");
                }
            }
        }
    }

    #[test]
    fn the_fast_campaigns_answer_alike() {
        for index in 0..CASES {
            let case = case(2, index);
            for (graph, table) in held(&case.file) {
                let score = |campaign: Campaign| {
                    let (mut first, mut second) = (vec![1; 31], vec![2; 31]);
                    let input = &case.input;
                    let score = campaign(&graph, &table, input, &mut first, &mut second, 300);
                    (score, first, second)
                };
                let plain = score(campaign);
                assert_eq!(plain, score(campaign_forked), "case {index}");
                assert_eq!(plain, score(campaign_rerun), "case {index}");
            }
        }
    }

    type Campaign = fn(
        &crate::graph::Graph,
        &[u32],
        &[u32],
        &mut [u32],
        &mut [u32],
        u32,
    ) -> Result<crate::campaign::Score, crate::refusal::Refusal>;

    fn held(file: &[u8]) -> Vec<Held> {
        read(file).into_iter().chain(read_hardened(file)).collect()
    }

    #[test]
    fn what_is_read_is_written_alike_and_read_again() {
        for index in 0..CASES {
            let case = case(4, index);
            let mut out = vec![0; file::LONGEST];
            if let Ok((graph, table)) = read(&case.file) {
                let length = file::write(&graph, &table, &mut out).unwrap();
                assert_eq!(out[..length], case.file, "case {index}");
            }
            for (graph, table) in held(&case.file) {
                let length = file::write(&graph, &table, &mut out).unwrap();
                assert_eq!(read(&out[..length]), Ok((graph, table)), "case {index}");
            }
        }
    }

    #[test]
    fn the_readable_form_comes_back() {
        for index in 0..CASES {
            let case = case(3, index);
            if let Ok((graph, table)) = read(&case.file) {
                let text = show(&graph, &table);
                assert_eq!(assemble(&text), Ok(case.file), "case {index}");
            }
        }
    }
}
