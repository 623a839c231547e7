//! What is timed: a graph, plain or hardened, and its input.

use second::graph::{Graph, BRANCH_WORD, CONST, RET};
use second::programs::{read, read_hardened, Held, TABLE_WORDS};
use second::refusal::Refusal;
use second::run::LAST_BUDGET;
use second::text::assemble;

/// Event words that are lent.
pub const ROOM: usize = 16_384;

/// A graph to run or to score.
pub struct Case {
    pub graph: Graph,
    pub table: Vec<u32>,
    pub input: Vec<u32>,
    pub budget: u32,
}

impl Case {
    /// A loop that goes round as often as its first input word says.
    pub fn new(text: &str, hardened: bool, rounds: u32) -> Self {
        let file = assemble(text).expect("a timed graph is well formed");
        let held: Result<Held, Refusal> = if hardened {
            read_hardened(&file)
        } else {
            read(&file)
        };
        let (graph, table) = held.expect("a timed graph is accepted");
        Case {
            graph,
            table,
            input: input(rounds),
            budget: LAST_BUDGET,
        }
    }
}

/// The rounds, then words without a pattern.
fn input(rounds: u32) -> Vec<u32> {
    let mut word = rounds;
    let further = (0..4_095).map(|_| {
        word = word.wrapping_mul(1_664_525).wrapping_add(1_013_904_223);
        word
    });
    std::iter::once(rounds).chain(further).collect()
}

/// The hardened graph of a source.
pub fn hardened((graph, table): &Held) -> Held {
    let mut out = vec![0; TABLE_WORDS];
    let graph = second::harden::harden(graph, table, &mut out).expect("a source to harden");
    (graph, out)
}

/// Branches only: each goes one node on, the last one back to the entry, or to the entry.
pub fn branches(nodes: u32, downward: bool) -> Held {
    chain(nodes, downward, |node, next, entry| {
        [BRANCH_WORD, 0, 0, node, next.unwrap_or(entry), entry]
    })
}

/// One block: each node sets a register and goes one node on, the last one returns.
pub fn block(nodes: u32, downward: bool) -> Held {
    chain(nodes, downward, |node, next, _| match next {
        Some(next) => [CONST, 0, node, next, 0, 0],
        None => [RET, 0, 0, 0, 0, 0],
    })
}

/// All nodes in one line from the entry: upward from node 0, or downward from the last, where
/// upward sweeps mark one node each.
fn chain(nodes: u32, downward: bool, row: impl Fn(u32, Option<u32>, u32) -> [u32; 6]) -> Held {
    let place = |k: u32| if downward { nodes - 1 - k } else { k };
    let mut table = vec![0; TABLE_WORDS];
    for k in 0..nodes {
        let next = (k + 1 < nodes).then(|| place(k + 1));
        let first = 6 * place(k) as usize;
        table[first..first + 6].copy_from_slice(&row(place(k), next, place(0)));
    }
    let graph = Graph {
        registers: 1,
        nodes,
        entry: place(0),
    };
    (graph, table)
}
