//! "The hardened graph": every branch tested twice, every crossing edge
//! updated and checked.

use crate::blocks::Blocks;
use crate::graph::*;
use crate::refusal::{refuse, Refusal};
use crate::table::check_source;

const XOR: u32 = 4;
const NOT_EQUAL: u32 = 1;

/// Hardens a source into the first 6H words of a lent table.
pub fn harden(graph: &Graph, table: &[u32], output: &mut [u32]) -> Result<Graph, Refusal> {
    check_source(graph, table)?;
    let rows = Hardening::new(graph, table).rows();
    let needed = rows.len() * NODE_WORDS;
    if output.len() < needed {
        return refuse(11, needed);
    }
    output[..needed].copy_from_slice(&rows.concat());
    Ok(Graph {
        registers: graph.registers + 2,
        nodes: rows.len() as u32,
        entry: graph.nodes,
    })
}

/// A hardened table in the making; rows are appended in node order.
struct Hardening<'a> {
    graph: &'a Graph,
    blocks: Blocks,
    gsr: u32,
    rts: u32,
    rows: Vec<Row>,
}

impl<'a> Hardening<'a> {
    fn new(graph: &'a Graph, table: &[u32]) -> Self {
        Hardening {
            graph,
            blocks: Blocks::of(graph, table),
            gsr: graph.registers,
            rts: graph.registers + 1,
            rows: (0..graph.nodes).map(|node| row(table, node)).collect(),
        }
    }

    fn rows(mut self) -> Vec<Row> {
        let entry = self.graph.entry;
        let start = self.signature(entry);
        self.rows.push([CONST, self.gsr, start, entry, 0, 0]);
        self.rows.push([CATCH, 0, 0, 0, 0, 0]);
        for node in 0..self.graph.nodes {
            if is_branch(&self.rows[node as usize]) {
                self.branch_group(node);
            } else if let Some(leader) = self.blocks.crossing(&self.rows[node as usize]) {
                self.crossing_group(node, leader);
            }
        }
        self.rows
    }

    fn branch_group(&mut self, node: u32) {
        let source = self.rows[node as usize];
        let [kind, c, a, b, then, other] = source;
        let e = self.rows.len() as u32;
        self.rows[node as usize] = [kind, c, a, b, e, e + 1];
        self.prepare(node, then, e + 2);
        self.prepare(node, other, e + 2);
        // The test is made anew; an outcome kept from the first would share its fault.
        self.rows.push([kind, c, a, b, e + 3, e + 5]);
        self.update(e + 4);
        self.check(then);
        self.update(e + 6);
        self.check(other);
    }

    fn crossing_group(&mut self, node: u32, leader: u32) {
        let e = self.rows.len() as u32;
        let source = &mut self.rows[node as usize];
        if let Some(word) = next_word(source[0]) {
            source[word] = e;
        }
        self.prepare(node, leader, e + 1);
        self.update(e + 2);
        self.check(leader);
    }

    /// RTS becomes the difference between two blocks' signatures.
    fn prepare(&mut self, from: u32, to: u32, next: u32) {
        let difference = self.signature(from) ^ self.signature(to);
        self.rows.push([CONST, self.rts, difference, next, 0, 0]);
    }

    /// GSR takes up the difference.
    fn update(&mut self, next: u32) {
        self.rows
            .push([OP, XOR, self.gsr, self.gsr, self.rts, next]);
    }

    /// GSR is held against the block's own signature, never against RTS.
    fn check(&mut self, target: u32) {
        let catch = self.graph.nodes + 1;
        let signature = self.signature(target);
        self.rows
            .push([BRANCH_WORD, NOT_EQUAL, self.gsr, signature, catch, target]);
    }

    fn signature(&self, node: u32) -> u32 {
        self.blocks.signature[node as usize]
    }
}
