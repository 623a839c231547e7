//! "Running and scoring", one run: a machine over a checked table, stepped
//! until it ends.

use crate::graph::*;
use crate::refusal::{refuse, Refusal};
use crate::table::check_runnable;

pub const LAST_BUDGET: u32 = 100_000;

#[derive(Clone, Copy, Debug, PartialEq, Eq)]
pub enum Outcome {
    Returned(u32),
    Caught,
    Spent,
    Full,
}

/// What a run answers; `events` counts the events, two words each.
#[derive(Clone, Debug, PartialEq, Eq)]
pub struct Answer {
    pub outcome: Outcome,
    pub node: u32,
    pub registers: [u32; 64],
    pub steps: u32,
    pub branches: u32,
    pub reads: u32,
    pub events: u32,
}

/// Checks the graph and the budget, then runs; a fault names a branch by its
/// place among those executed.
pub fn run(
    graph: &Graph,
    table: &[u32],
    input: &[u32],
    buffer: &mut [u32],
    budget: u32,
    fault: Option<u32>,
) -> Result<Answer, Refusal> {
    check_runnable(graph, table)?;
    if budget > LAST_BUDGET {
        return refuse(12, 0);
    }
    let mut machine = Machine::new(graph, table, input, buffer);
    machine.fault = fault;
    Ok(machine.run(budget))
}

/// The state of a run and the buffers lent to it.
pub struct Machine<'a> {
    table: &'a [u32],
    input: &'a [u32],
    buffer: &'a mut [u32],
    pub fault: Option<u32>,
    pub registers: [u32; 64],
    pub node: u32,
    pub steps: u32,
    pub branches: u32,
    pub reads: u32,
    pub events: u32,
}

impl<'a> Machine<'a> {
    pub fn new(graph: &Graph, table: &'a [u32], input: &'a [u32], buffer: &'a mut [u32]) -> Self {
        Machine {
            table,
            input,
            buffer,
            fault: None,
            registers: [0; 64],
            node: graph.entry,
            steps: 0,
            branches: 0,
            reads: 0,
            events: 0,
        }
    }

    fn run(&mut self, budget: u32) -> Answer {
        loop {
            if let Some(outcome) = self.advance(budget) {
                return self.answer(outcome);
            }
        }
    }

    /// Ends before the step, or makes one step; Spent is looked at before Full.
    pub fn advance(&mut self, budget: u32) -> Option<Outcome> {
        if self.steps == budget {
            return Some(Outcome::Spent);
        }
        let row = row(self.table, self.node);
        if row[0] == OUT && self.room() < 2 {
            return Some(Outcome::Full);
        }
        self.steps += 1;
        self.step(&row)
    }

    fn room(&self) -> usize {
        self.buffer.len() - 2 * self.events as usize
    }

    fn step(&mut self, row: &Row) -> Option<Outcome> {
        match *row {
            [CONST, d, k, next, ..] => self.set(d, k, next),
            [OP, o, d, a, b, next] => {
                let value = operate(o, self.value(a), self.value(b));
                self.set(d, value, next);
            }
            [BRANCH, c, a, b, then, other] => {
                let test = holds(c, self.value(a), self.value(b));
                self.branch(test, then, other);
            }
            [BRANCH_WORD, c, a, k, then, other] => {
                let test = holds(c, self.value(a), k);
                self.branch(test, then, other);
            }
            [IN, d, next, ..] => {
                let word = self.input.get(self.reads as usize).copied();
                self.reads += 1;
                self.set(d, word.unwrap_or(0), next);
            }
            [OUT, port, a, next, ..] => self.emit(port, a, next),
            [RET, a, ..] => return Some(Outcome::Returned(self.value(a))),
            _ => return Some(Outcome::Caught),
        }
        None
    }

    fn value(&self, register: u32) -> u32 {
        self.registers[register as usize]
    }

    fn set(&mut self, register: u32, value: u32, next: u32) {
        self.registers[register as usize] = value;
        self.node = next;
    }

    fn branch(&mut self, test: bool, then: u32, other: u32) {
        let inverted = self.fault == Some(self.branches);
        self.branches += 1;
        self.node = if test != inverted { then } else { other };
    }

    fn emit(&mut self, port: u32, register: u32, next: u32) {
        let first = 2 * self.events as usize;
        self.buffer[first] = port;
        self.buffer[first + 1] = self.value(register);
        self.events += 1;
        self.node = next;
    }

    fn answer(&self, outcome: Outcome) -> Answer {
        Answer {
            outcome,
            node: self.node,
            registers: self.registers,
            steps: self.steps,
            branches: self.branches,
            reads: self.reads,
            events: self.events,
        }
    }
}

/// The seven operators; shifts go by the second operand modulo 32.
pub fn operate(o: u32, a: u32, b: u32) -> u32 {
    match o {
        0 => a.wrapping_add(b),
        1 => a.wrapping_sub(b),
        2 => a & b,
        3 => a | b,
        4 => a ^ b,
        5 => a << (b % 32),
        6 => a >> (b % 32),
        _ => unreachable!("the table was checked"),
    }
}

/// The six comparisons; the last two read the words as two's complement.
pub fn holds(c: u32, a: u32, b: u32) -> bool {
    match c {
        0 => a == b,
        1 => a != b,
        2 => a < b,
        3 => a >= b,
        4 => (a as i32) < (b as i32),
        5 => (a as i32) >= (b as i32),
        _ => unreachable!("the table was checked"),
    }
}
