//! Demand 3 tried: what the hardened graph promises about its source, seen in
//! the answers of the given programs alone. The second program's own machine
//! only says where to look: crossings on the way, and the steps of branches.

use crate::blocks::Blocks;
use crate::compare::Trial;
use crate::dice::Dice;
use crate::generate::Line;
use crate::graph::{is_branch, row};
use crate::observe::Observed;
use crate::programs::{read, read_hardened, Held};
use crate::run::{Machine, LAST_BUDGET};

/// Steps within which an inverted branch is caught.
const SOON: u32 = 5;
/// Campaigns by rerunning are kept below this many steps.
const COST: u64 = 1_000_000;

/// Tries the case if its file is an accepted source.
pub fn try_on(trial: &mut Trial) {
    let file = &trial.case.file;
    let (Ok(source), Ok(hardened)) = (read(file), read_hardened(file)) else {
        return;
    };
    let mut dice = Dice::new(trial.case.seed ^ 0xd3, trial.case.index);
    let room = match dice.below(8) {
        0 => dice.below(6),
        _ => dice.between(40, 400),
    };
    let mut attempt = Attempt {
        trial,
        blocks: Blocks::of(&source.0, &source.1),
        source,
        hardened,
        room,
        dice,
    };
    attempt.make();
}

/// A source and its hardened graph, with one event room for both.
struct Attempt<'a, 'b> {
    trial: &'a mut Trial<'b>,
    source: Held,
    blocks: Blocks,
    hardened: Held,
    room: u32,
    dice: Dice,
}

/// Counts along a source run: s, b, x, and branches whose targets are one node.
#[derive(Clone, Copy, Default)]
struct Walk {
    steps: u32,
    branches: u32,
    crossings: u32,
    one_target: u32,
    ended: bool,
}

impl Walk {
    /// The steps of the hardened run that stands where this walk does.
    fn hardened_steps(&self) -> u32 {
        1 + self.steps + 4 * self.branches + 3 * self.crossings
    }
}

/// A branch that the hardened run executes: its place, the steps after it,
/// and whether it is a doubled test whose two targets are one node.
#[derive(Clone, Copy)]
struct Place {
    place: u32,
    steps: u32,
    one_target: bool,
}

impl Attempt<'_, '_> {
    fn make(&mut self) {
        // Long runs now and then; most stay where a process start is dear.
        let limit = match self.dice.below(40) {
            0 => LAST_BUDGET - 100,
            _ => 3_000,
        };
        let whole = self.walk(u32::MAX, limit);
        let budget = match whole.ended {
            true => whole.steps + 1 + self.dice.below(50),
            false => whole.steps,
        };
        let source = self.follows(budget);
        let cut = self.dice.below(whole.steps + 1);
        self.follows(cut);
        let places = self.places(whole.hardened_steps());
        for place in self.sample(&places) {
            self.inversion(place);
        }
        if let Some(source) = source.filter(|_| whole.ended) {
            self.score(&whole, &source);
        }
    }

    /// Walks the source for so many steps, or until its hardened run would
    /// need more than a limit.
    fn walk(&self, steps: u32, limit: u32) -> Walk {
        let (graph, table) = &self.source;
        let mut buffer = vec![0; self.room as usize];
        let mut machine = Machine::new(graph, table, &self.trial.case.input, &mut buffer);
        let mut walk = Walk::default();
        while walk.steps < steps && walk.hardened_steps() + 5 <= limit {
            let row = row(table, machine.node);
            let end = machine.advance(u32::MAX);
            walk.steps = machine.steps;
            walk.branches = machine.branches;
            if end.is_some() {
                walk.ended = true;
                return walk;
            }
            walk.crossings += u32::from(self.blocks.crossing(&row).is_some());
            walk.one_target += u32::from(is_branch(&row) && row[4] == row[5]);
        }
        walk
    }

    /// The hardened run stands after 1 + s + 4b + 3x steps as the source does
    /// after s; answers the source's run.
    fn follows(&mut self, budget: u32) -> Option<Observed> {
        let source_line = self.line("plain", budget, "none");
        let source = self.observe(&source_line)?;
        let walk = self.walk(source.steps, u32::MAX);
        let expected = 1 + source.steps + 4 * source.branches + 3 * walk.crossings;
        // Full is no step, so it shows only when one more step is allowed.
        let budget = expected + u32::from(source.outcome == "full");
        let line = self.line("hardened", budget, "none");
        let hardened = self.observe(&line)?;
        self.trial.tally.follows += 1;
        let registers = self.source.0.registers as usize;
        let alike = hardened.steps == expected
            && hardened.branches == 3 * source.branches + walk.crossings
            && hardened.outcome == source.outcome
            && hardened.node == source.node
            && hardened.reads == source.reads
            && hardened.events == source.events
            && hardened.registers[..registers] == source.registers[..registers];
        if !alike {
            let message = format!(
                "demand 3: expected {expected} steps and what `hrun {}` shows\nplain {source:?}\nhardened {hardened:?}",
                source_line.join(" ")
            );
            self.trial.fail("hrun", &line, &message);
        }
        Some(source)
    }

    /// The branches among the first steps of the hardened run.
    fn places(&self, steps: u32) -> Vec<Place> {
        let (graph, table) = &self.hardened;
        let nodes = self.source.0.nodes;
        let mut buffer = vec![0; self.room as usize];
        let mut machine = Machine::new(graph, table, &self.trial.case.input, &mut buffer);
        let mut places = Vec::new();
        let mut last_test = 0;
        loop {
            let node = machine.node;
            if machine.advance(steps).is_some() {
                return places;
            }
            if machine.branches as usize == places.len() {
                continue;
            }
            // After a source branch the second test comes next, then the check.
            let doubled = node < nodes || self.second_test(last_test) == Some(node);
            if node < nodes {
                last_test = node;
            }
            let test = row(&self.source.1, last_test);
            places.push(Place {
                place: machine.branches - 1,
                steps: machine.steps,
                one_target: doubled && test[4] == test[5],
            });
        }
    }

    /// The node that repeats the test of a source branch.
    fn second_test(&self, branch: u32) -> Option<u32> {
        let row = row(&self.hardened.1, branch);
        is_branch(&row).then(|| row[4] + 2)
    }

    fn sample(&mut self, places: &[Place]) -> Vec<Place> {
        if places.is_empty() {
            return Vec::new();
        }
        if places.len() <= 16 && self.dice.below(15) == 0 {
            return places.to_vec();
        }
        vec![self.dice.pick(places)]
    }

    /// One inverted branch: caught soon with nothing read or emitted after
    /// it, or, at a test with one target, undone two steps later.
    fn inversion(&mut self, at: Place) {
        let Some(before) = self.observe(&self.line("hardened", at.steps - 1, "none")) else {
            return;
        };
        let Some(after) = self.observe(&self.line("hardened", at.steps, "none")) else {
            return;
        };
        let further = if at.one_target { 2 } else { SOON };
        let line = self.line("hardened", at.steps + further, &at.place.to_string());
        let Some(inverted) = self.observe(&line) else {
            return;
        };
        self.trial.tally.inversions += 1;
        let there = before.branches == at.place && after.branches == at.place + 1;
        let kept = if at.one_target {
            self.trial
                .tally
                .mix
                .add("demand 3: inversions of one target");
            let undisturbed = self.line("hardened", at.steps + further, "none");
            self.observe(&undisturbed).as_ref() == Some(&inverted)
        } else {
            self.trial.tally.mix.add("demand 3: inversions caught");
            inverted.outcome == "caught"
                && inverted.steps <= at.steps + SOON
                && inverted.reads == before.reads
                && inverted.events == before.events
        };
        if !(there && kept) {
            let message = format!(
                "demand 3: branch {} after {} steps, one target {}\nbefore {before:?}\nafter {after:?}\ninverted {inverted:?}",
                at.place, at.steps, at.one_target
            );
            self.trial.fail("hrun", &line, &message);
        }
    }

    /// A hardened score with five steps to spare: all caught, but for the
    /// two tests of each branch with one target.
    fn score(&mut self, whole: &Walk, source: &Observed) {
        let positions = 3 * source.branches + whole.crossings;
        let steps = whole.hardened_steps();
        let returned = source.outcome.starts_with("returned");
        if !returned || u64::from(positions) * u64::from(steps) / 2 > COST {
            return;
        }
        let harmless = 2 * whole.one_target;
        let caught = positions - harmless;
        let spare = SOON + self.dice.below(30);
        let mut line = self.line("hardened", steps + spare, "");
        line.remove(3);
        let expected = format!("{positions} {caught} 0 {harmless} 0 0\n");
        let Some(output) = self.trial.output("hscore", &line) else {
            return;
        };
        self.trial.tally.hardened_scores += 1;
        if output != expected {
            let message = format!("demand 3: expected {expected}found {output}");
            self.trial.fail("hscore", &line, &message);
        }
    }

    fn line(&self, mode: &str, budget: u32, fault: &str) -> Line {
        let mut line = vec![mode.to_string(), budget.to_string()];
        line.extend([self.room.to_string(), fault.to_string()]);
        line.extend(self.trial.case.input.iter().map(u32::to_string));
        line
    }

    fn observe(&mut self, line: &Line) -> Option<Observed> {
        let output = self.trial.output("hrun", line)?;
        let budget: u32 = line[1].parse().unwrap_or(0);
        // Walking along steps that were never allowed would lead nowhere.
        let observed = Observed::parse(&output).filter(|observed| observed.steps <= budget);
        if observed.is_none() {
            self.trial.tally.follows += 1;
            let message = format!("demand 3: expected the lines of a run, found\n{output}");
            self.trial.fail("hrun", line, &message);
        }
        observed
    }
}
