//! "Blocks and signatures": leaders, the signature of each node's block, and
//! crossing edges of an accepted source.

use crate::graph::*;

/// For each node whether it is a leader, and its block's signature.
pub struct Blocks {
    pub leader: Vec<bool>,
    pub signature: Vec<u32>,
}

impl Blocks {
    pub fn of(graph: &Graph, table: &[u32]) -> Self {
        let leader = leaders(graph, table);
        let predecessor = predecessors(graph, table);
        let rank = ranks(&leader);
        let signature = (0..graph.nodes as usize)
            .map(|node| {
                let mut head = node;
                // A node that leads no block has one predecessor, in its block.
                while !leader[head] {
                    head = predecessor[head];
                }
                1 + rank[head]
            })
            .collect();
        Blocks { leader, signature }
    }

    /// The leader that a node crosses to, if its one edge is a crossing edge.
    pub fn crossing(&self, row: &Row) -> Option<u32> {
        let target = row[next_word(row[0])?];
        self.leader[target as usize].then_some(target)
    }
}

fn leaders(graph: &Graph, table: &[u32]) -> Vec<bool> {
    let count = graph.nodes as usize;
    let mut incoming = vec![0; count];
    let mut leader = vec![false; count];
    leader[graph.entry as usize] = true;
    for node in 0..graph.nodes {
        let row = row(table, node);
        for target in edges(&row) {
            incoming[target as usize] += 1;
            leader[target as usize] |= is_branch(&row);
        }
    }
    for node in 0..count {
        leader[node] |= incoming[node] >= 2;
    }
    leader
}

/// One predecessor of each node; only that of a non-leader is meant.
fn predecessors(graph: &Graph, table: &[u32]) -> Vec<usize> {
    let mut found = vec![0; graph.nodes as usize];
    for node in 0..graph.nodes {
        for target in edges(&row(table, node)) {
            found[target as usize] = node as usize;
        }
    }
    found
}

/// The rank of each leader among all leaders, in ascending node order.
fn ranks(leader: &[bool]) -> Vec<u32> {
    let mut before = 0;
    leader
        .iter()
        .map(|&leads| {
            let rank = before;
            before += u32::from(leads);
            rank
        })
        .collect()
}
