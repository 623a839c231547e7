//! "The graph": six-word nodes, their kinds, and the two sizes of graph.

pub const NODE_WORDS: usize = 6;

pub const CONST: u32 = 1;
pub const OP: u32 = 2;
pub const BRANCH: u32 = 3;
pub const BRANCH_WORD: u32 = 4;
pub const IN: u32 = 5;
pub const OUT: u32 = 6;
pub const RET: u32 = 7;
pub const CATCH: u32 = 8;

pub const LAST_OPERATOR: u32 = 6;
pub const LAST_COMPARISON: u32 = 5;
pub const LAST_PORT: u32 = 255;

/// The six words of one node.
pub type Row = [u32; NODE_WORDS];

/// What stands beside a table: R, N and the entry node.
#[derive(Clone, Copy, Debug, PartialEq, Eq)]
pub struct Graph {
    pub registers: u32,
    pub nodes: u32,
    pub entry: u32,
}

/// How large a graph may be, and whether it may hold a catch.
pub struct Limits {
    pub registers: u32,
    pub nodes: u32,
    pub may_catch: bool,
}

pub const RUNNABLE: Limits = Limits {
    registers: 64,
    nodes: 2050,
    may_catch: true,
};

pub const SOURCE: Limits = Limits {
    registers: 62,
    nodes: 256,
    may_catch: false,
};

/// The row of a node that lies inside the table.
pub fn row(table: &[u32], node: u32) -> Row {
    let first = node as usize * NODE_WORDS;
    let mut words = [0; NODE_WORDS];
    words.copy_from_slice(&table[first..first + NODE_WORDS]);
    words
}

pub fn is_branch(row: &Row) -> bool {
    row[0] == BRANCH || row[0] == BRANCH_WORD
}

/// Where the one target of a non-branch stands in its row, if it has one.
pub fn next_word(kind: u32) -> Option<usize> {
    match kind {
        CONST => Some(3),
        OP => Some(5),
        IN => Some(2),
        OUT => Some(3),
        _ => None,
    }
}

/// The edges out of a node, one for each target word.
pub fn edges(row: &Row) -> Vec<u32> {
    if is_branch(row) {
        return vec![row[4], row[5]];
    }
    next_word(row[0])
        .map(|word| row[word])
        .into_iter()
        .collect()
}

/// How many fields a kind has; a spare word is no field.
pub fn field_count(kind: u32) -> usize {
    match kind {
        OP | BRANCH | BRANCH_WORD => 5,
        CONST | OUT => 3,
        IN => 2,
        RET => 1,
        _ => 0,
    }
}
