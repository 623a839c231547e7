//! The run and the campaign written for speed, as a yardstick: the same
//! answers as `run` and `campaign`, over plain slices.

use crate::campaign::Score;
use crate::graph::*;
use crate::refusal::{refuse, Refusal};
use crate::run::{Answer, Outcome, LAST_BUDGET};
use crate::table::check_runnable;

/// A place that no run within the last budget reaches.
const NO_FAULT: u32 = u32::MAX;

/// Everything a step changes but the event buffer.
#[derive(Clone, Copy)]
struct State {
    registers: Registers,
    at: At,
}

type Registers = [u32; 64];

/// Where a run stands; apart from the registers, so that a loop can hold it
/// in the processor's own. `words` counts event words.
#[derive(Clone, Copy)]
struct At {
    node: u32,
    steps: u32,
    branches: u32,
    reads: u32,
    words: usize,
}

impl State {
    fn start(entry: u32) -> Self {
        State {
            registers: [0; 64],
            at: At {
                node: entry,
                steps: 0,
                branches: 0,
                reads: 0,
                words: 0,
            },
        }
    }

    fn answer(&self, outcome: Outcome) -> Answer {
        Answer {
            outcome,
            node: self.at.node,
            registers: self.registers,
            steps: self.at.steps,
            branches: self.at.branches,
            reads: self.at.reads,
            events: (self.at.words / 2) as u32,
        }
    }
}

/// A checked table names no register above 63; the mask tells the compiler.
#[inline(always)]
fn index(register: u32) -> usize {
    (register & 63) as usize
}

/// The same answer as `run::run`, refusals too.
pub fn run_fast(
    graph: &Graph,
    table: &[u32],
    input: &[u32],
    buffer: &mut [u32],
    budget: u32,
    fault: Option<u32>,
) -> Result<Answer, Refusal> {
    let rows = checked(graph, table, budget)?;
    let mut state = State::start(graph.entry);
    let fault = fault.unwrap_or(NO_FAULT);
    let outcome = go(rows, input, buffer, &mut state, budget, fault);
    Ok(state.answer(outcome))
}

fn checked<'a>(graph: &Graph, table: &'a [u32], budget: u32) -> Result<&'a [Row], Refusal> {
    check_runnable(graph, table)?;
    if budget > LAST_BUDGET {
        return refuse(12, 0);
    }
    Ok(&table.as_chunks::<NODE_WORDS>().0[..graph.nodes as usize])
}

/// Runs on from a state to its end.
fn go(
    rows: &[Row],
    input: &[u32],
    buffer: &mut [u32],
    state: &mut State,
    budget: u32,
    fault: u32,
) -> Outcome {
    let registers = &mut state.registers;
    let mut at = state.at;
    let mut ended = None;
    while ended.is_none() && at.steps < budget {
        let invert = at.branches == fault;
        ended = step(rows, input, buffer, registers, &mut at, invert);
    }
    state.at = at;
    ended.unwrap_or(Outcome::Spent)
}

/// One step, or Full before it.
#[inline(always)]
fn step(
    rows: &[Row],
    input: &[u32],
    buffer: &mut [u32],
    registers: &mut Registers,
    at: &mut At,
    invert: bool,
) -> Option<Outcome> {
    // All six words at once: a branch then waits for no load after its test.
    let row = rows[at.node as usize];
    match row[0] {
        CONST => {
            registers[index(row[1])] = row[2];
            at.node = row[3];
        }
        OP => {
            let (a, b) = (registers[index(row[3])], registers[index(row[4])]);
            registers[index(row[2])] = operate(row[1], a, b);
            at.node = row[5];
        }
        BRANCH => branch(&row, registers, registers[index(row[3])], at, invert),
        BRANCH_WORD => branch(&row, registers, row[3], at, invert),
        IN => {
            registers[index(row[1])] = input.get(at.reads as usize).copied().unwrap_or(0);
            at.reads += 1;
            at.node = row[2];
        }
        OUT => {
            let event = buffer.get_mut(at.words..at.words + 2);
            let Some(event) = event else {
                return Some(Outcome::Full);
            };
            event.copy_from_slice(&[row[1], registers[index(row[2])]]);
            at.words += 2;
            at.node = row[3];
        }
        kind => return Some(end(kind, registers[index(row[1])], at)),
    }
    at.steps += 1;
    None
}

#[inline(always)]
fn branch(row: &Row, registers: &Registers, right: u32, at: &mut At, invert: bool) {
    let test = holds(row[1], registers[index(row[2])], right);
    at.node = if test != invert { row[4] } else { row[5] };
    at.branches += 1;
}

#[inline(always)]
fn end(kind: u32, value: u32, at: &mut At) -> Outcome {
    at.steps += 1;
    match kind {
        RET => Outcome::Returned(value),
        _ => Outcome::Caught,
    }
}

#[inline(always)]
fn operate(o: u32, a: u32, b: u32) -> u32 {
    match o {
        0 => a.wrapping_add(b),
        1 => a.wrapping_sub(b),
        2 => a & b,
        3 => a | b,
        4 => a ^ b,
        5 => a.wrapping_shl(b),
        _ => a.wrapping_shr(b),
    }
}

#[inline(always)]
fn holds(c: u32, a: u32, b: u32) -> bool {
    match c {
        0 => a == b,
        1 => a != b,
        2 => a < b,
        3 => a >= b,
        4 => (a as i32) < (b as i32),
        _ => (a as i32) >= (b as i32),
    }
}

/// A campaign with its reference found, and what the classes are held against.
struct Reference<'a> {
    rows: &'a [Row],
    input: &'a [u32],
    events: &'a [u32],
    outcome: Outcome,
    branches: u32,
    budget: u32,
}

impl Reference<'_> {
    /// Counts one disturbed run whose first `shared` event words are known equal.
    fn count(&self, score: &mut Score, outcome: Outcome, written: &[u32], shared: usize) {
        let fresh = &written[shared..];
        let class = match outcome {
            Outcome::Caught if self.events[shared..].starts_with(fresh) => &mut score.caught,
            Outcome::Caught => &mut score.late,
            Outcome::Returned(_) if outcome == self.outcome && fresh == &self.events[shared..] => {
                &mut score.harmless
            }
            Outcome::Returned(_) | Outcome::Full => &mut score.changed,
            Outcome::Spent => &mut score.unended,
        };
        *class += 1;
        score.positions += 1;
    }
}

/// Checks as `campaign::campaign` does and puts the reference events into
/// the first buffer, by way of a trial buffer since a refusal changes nothing.
fn reference<'a>(
    graph: &Graph,
    table: &'a [u32],
    input: &'a [u32],
    first: &'a mut [u32],
    second: &[u32],
    budget: u32,
) -> Result<Reference<'a>, Refusal> {
    let rows = checked(graph, table, budget)?;
    if first.len() != second.len() {
        return refuse(14, 0);
    }
    let mut state = State::start(graph.entry);
    let mut trial = vec![0; first.len()];
    let outcome = go(rows, input, &mut trial, &mut state, budget, NO_FAULT);
    if !matches!(outcome, Outcome::Returned(_)) {
        return refuse(13, 0);
    }
    first[..state.at.words].copy_from_slice(&trial[..state.at.words]);
    Ok(Reference {
        rows,
        input,
        events: &first[..state.at.words],
        outcome,
        branches: state.at.branches,
        budget,
    })
}

/// Walks the reference once more and forks a disturbed run at each branch.
pub fn campaign_forked(
    graph: &Graph,
    table: &[u32],
    input: &[u32],
    first: &mut [u32],
    second: &mut [u32],
    budget: u32,
) -> Result<Score, Refusal> {
    let found = reference(graph, table, input, first, second, budget)?;
    let mut score = Score::default();
    let mut walk = State::start(graph.entry);
    while walk.at.branches < found.branches {
        if is_branch(&found.rows[walk.at.node as usize]) {
            let mut fork = walk;
            let place = fork.at.branches;
            let outcome = go(found.rows, input, second, &mut fork, budget, place);
            let written = &second[..fork.at.words];
            found.count(&mut score, outcome, written, walk.at.words);
        }
        // No fork looks at events before its own, so the walk may write over them.
        let State { registers, at } = &mut walk;
        step(found.rows, input, second, registers, at, false);
    }
    second.fill(0);
    Ok(score)
}

/// Makes each disturbed run from the start.
pub fn campaign_rerun(
    graph: &Graph,
    table: &[u32],
    input: &[u32],
    first: &mut [u32],
    second: &mut [u32],
    budget: u32,
) -> Result<Score, Refusal> {
    let found = reference(graph, table, input, first, second, budget)?;
    let mut score = Score::default();
    for place in 0..found.branches {
        let mut state = State::start(graph.entry);
        let outcome = go(
            found.rows,
            found.input,
            second,
            &mut state,
            found.budget,
            place,
        );
        found.count(&mut score, outcome, &second[..state.at.words], 0);
    }
    second.fill(0);
    Ok(score)
}
