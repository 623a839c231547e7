//! Both sides give the same answers and leave the same buffers; nothing is timed before that.

use crate::case::{hardened, Case, ROOM};
use crate::proved;
use second::campaign::Score;
use second::fast::{campaign_forked, campaign_rerun, run_fast};
use second::file::LONGEST;
use second::programs::{Held, TABLE_WORDS};
use second::run::Answer;

pub fn rust_run(case: &Case, events: &mut [u32]) -> Answer {
    let (graph, table, input) = (&case.graph, &case.table, &case.input);
    run_fast(graph, table, input, events, case.budget, None).expect("a timed run is accepted")
}

/// The two event buffers of a campaign.
pub struct Buffers {
    first: Vec<u32>,
    second: Vec<u32>,
}

impl Buffers {
    pub fn new() -> Self {
        Buffers {
            first: vec![0; ROOM],
            second: vec![0; ROOM],
        }
    }

    pub fn proved(&mut self, case: &Case) -> usize {
        proved::campaign(case, &mut self.first, &mut self.second, 0)
    }

    fn score(&mut self, case: &Case) -> Score {
        proved::score(case, &mut self.first, &mut self.second)
    }

    pub fn forked(&mut self, case: &Case) -> Score {
        let (first, second) = (&mut self.first, &mut self.second);
        let (graph, table, input) = (&case.graph, &case.table, &case.input);
        campaign_forked(graph, table, input, first, second, case.budget)
            .expect("a timed campaign is accepted")
    }

    pub fn rerun(&mut self, case: &Case) -> Score {
        let (first, second) = (&mut self.first, &mut self.second);
        let (graph, table, input) = (&case.graph, &case.table, &case.input);
        campaign_rerun(graph, table, input, first, second, case.budget)
            .expect("a timed campaign is accepted")
    }
}

/// The steps of a run.
pub fn run(case: &Case) -> u32 {
    let (mut ours, mut theirs) = (vec![0; ROOM], vec![0; ROOM]);
    let answer = rust_run(case, &mut theirs);
    assert_eq!(proved::run_answer(case, &mut ours), answer);
    assert_eq!(ours, theirs);
    answer.steps
}

/// The score of a campaign.
pub fn campaign(case: &Case) -> Score {
    let (mut ours, mut theirs) = (Buffers::new(), Buffers::new());
    let score = theirs.forked(case);
    assert_eq!(ours.score(case), score);
    assert_eq!(ours.first, theirs.first);
    assert_eq!(ours.second, theirs.second);
    score
}

/// The nodes of a hardened source.
pub fn harden(source: &Held) -> usize {
    let mut ours = vec![0; TABLE_WORDS];
    let (hardened, theirs) = hardened(source);
    let nodes = proved::harden(&source.0, &source.1, &mut ours);
    assert_eq!(nodes, hardened.nodes as usize);
    assert_eq!(ours, theirs);
    nodes
}

pub fn rust_write((graph, table): &Held, out: &mut [u8]) -> usize {
    second::file::write(graph, table, out).expect("a timed graph is accepted")
}

/// The bytes of a graph's file.
pub fn write(held: &Held) -> usize {
    let (mut ours, mut theirs) = (vec![0; LONGEST], vec![0; LONGEST]);
    let bytes = rust_write(held, &mut theirs);
    assert_eq!(proved::write(&held.0, &held.1, &mut ours), bytes);
    assert_eq!(ours, theirs);
    bytes
}
