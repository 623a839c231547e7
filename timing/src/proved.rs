//! The proved entry points, called on a timed case.

use crate::case::Case;
use linked::{Header, RUN_NUMBERS, SCORE_NUMBERS};
use second::campaign::Score;
use second::graph::Graph;
use second::run::{Answer, Outcome};

fn header(graph: &Graph) -> Header {
    Header {
        registers: graph.registers as usize,
        nodes: graph.nodes as usize,
        entry: graph.entry as usize,
    }
}

/// An undisturbed run: one number of its answer.
pub fn run(case: &Case, events: &mut [u32], part: usize) -> usize {
    let (table, input) = (&case.table, &case.input);
    let budget = case.budget as usize;
    linked::run(
        &header(&case.graph),
        table,
        input,
        events,
        budget,
        None,
        part,
    )
}

/// The whole answer of a run that returns, number by number.
pub fn run_answer(case: &Case, events: &mut [u32]) -> Answer {
    let numbers: Vec<u32> = (0..RUN_NUMBERS)
        .map(|part| run(case, events, part) as u32)
        .collect();
    assert_eq!(numbers[..3], [0, 0, 1]);
    Answer {
        outcome: Outcome::Returned(numbers[3]),
        node: numbers[4],
        steps: numbers[5],
        branches: numbers[6],
        reads: numbers[7],
        events: numbers[8],
        registers: std::array::from_fn(|register| numbers[9 + register]),
    }
}

/// A campaign: one number of its answer.
pub fn campaign(case: &Case, first: &mut [u32], second: &mut [u32], part: usize) -> usize {
    let (table, input) = (&case.table, &case.input);
    let budget = case.budget as usize;
    linked::campaign(
        &header(&case.graph),
        table,
        input,
        first,
        second,
        budget,
        part,
    )
}

/// The whole score, number by number.
pub fn score(case: &Case, first: &mut [u32], second: &mut [u32]) -> Score {
    let numbers: Vec<u32> = (0..SCORE_NUMBERS)
        .map(|part| campaign(case, first, second, part) as u32)
        .collect();
    assert_eq!(numbers[..2], [0, 0]);
    Score {
        positions: numbers[2],
        caught: numbers[3],
        late: numbers[4],
        harmless: numbers[5],
        changed: numbers[6],
        unended: numbers[7],
    }
}

/// Hardening: H, or 0 on a refusal.
pub fn harden(graph: &Graph, table: &[u32], out: &mut [u32]) -> usize {
    linked::harden(&header(graph), table, out, 3)
}

/// Writing: how many bytes the file has, or 0 on a refusal.
pub fn write(graph: &Graph, table: &[u32], out: &mut [u8]) -> usize {
    linked::write(&header(graph), table, out, 2)
}
