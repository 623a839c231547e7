//! "Refusal numbers and the order of checks", for tables: R and N, room, the
//! entry, then nodes upward and words upward within a node; a source then
//! has its unreachable nodes looked for.

use crate::graph::*;
use crate::refusal::{refuse, Refusal};

type Checked = Result<(), Refusal>;

pub fn check_runnable(graph: &Graph, table: &[u32]) -> Checked {
    check(graph, table, &RUNNABLE)
}

pub fn check_source(graph: &Graph, table: &[u32]) -> Checked {
    check(graph, table, &SOURCE)?;
    match reached(graph, table).iter().position(|&mark| !mark) {
        Some(node) => refuse(9, node),
        None => Ok(()),
    }
}

fn check(graph: &Graph, table: &[u32], limits: &Limits) -> Checked {
    if !(1..=limits.registers).contains(&graph.registers) {
        return refuse(3, 0);
    }
    if !(1..=limits.nodes).contains(&graph.nodes) {
        return refuse(3, 0);
    }
    let needed = graph.nodes as usize * NODE_WORDS;
    if table.len() < needed {
        return refuse(4, needed);
    }
    if graph.entry >= graph.nodes {
        return refuse(7, 0);
    }
    for node in 0..graph.nodes {
        NodeCheck::new(graph, table, node).check(limits)?;
    }
    Ok(())
}

/// One node under check; each rule takes the word's position in the row.
struct NodeCheck<'a> {
    graph: &'a Graph,
    first: usize,
    row: Row,
}

impl<'a> NodeCheck<'a> {
    fn new(graph: &'a Graph, table: &[u32], node: u32) -> Self {
        NodeCheck {
            graph,
            first: node as usize * NODE_WORDS,
            row: row(table, node),
        }
    }

    fn check(&self, limits: &Limits) -> Checked {
        match self.row[0] {
            CONST => {
                self.register(1)?;
                self.target(3)?;
                self.spare_from(4)
            }
            OP => {
                self.at_most(LAST_OPERATOR, 1)?;
                self.register(2)?;
                self.register(3)?;
                self.register(4)?;
                self.target(5)
            }
            BRANCH | BRANCH_WORD => self.check_branch(),
            IN => {
                self.register(1)?;
                self.target(2)?;
                self.spare_from(3)
            }
            OUT => {
                self.at_most(LAST_PORT, 1)?;
                self.register(2)?;
                self.target(3)?;
                self.spare_from(4)
            }
            RET => {
                self.register(1)?;
                self.spare_from(2)
            }
            CATCH if limits.may_catch => self.spare_from(1),
            _ => refuse(5, self.first),
        }
    }

    fn check_branch(&self) -> Checked {
        self.at_most(LAST_COMPARISON, 1)?;
        self.register(2)?;
        // The fourth word of kind 4 is any word at all.
        if self.row[0] == BRANCH {
            self.register(3)?;
        }
        self.target(4)?;
        self.target(5)
    }

    fn at_most(&self, last: u32, word: usize) -> Checked {
        self.rule(self.row[word] <= last, 5, word)
    }

    fn register(&self, word: usize) -> Checked {
        self.rule(self.row[word] < self.graph.registers, 6, word)
    }

    fn target(&self, word: usize) -> Checked {
        self.rule(self.row[word] < self.graph.nodes, 7, word)
    }

    fn spare_from(&self, first: usize) -> Checked {
        (first..NODE_WORDS).try_for_each(|word| self.rule(self.row[word] == 0, 8, word))
    }

    fn rule(&self, kept: bool, number: u32, word: usize) -> Checked {
        if kept {
            Ok(())
        } else {
            refuse(number, self.first + word)
        }
    }
}

/// Which nodes some path from the entry reaches; counting incoming edges
/// would not do, since two dead nodes may jump to each other.
pub fn reached(graph: &Graph, table: &[u32]) -> Vec<bool> {
    let mut marks = vec![false; graph.nodes as usize];
    let mut waiting = vec![graph.entry];
    while let Some(node) = waiting.pop() {
        if !marks[node as usize] {
            marks[node as usize] = true;
            waiting.extend(edges(&row(table, node)));
        }
    }
    marks
}
