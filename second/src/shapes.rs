//! The graphs that cases are made of: structured programs that loop, branch,
//! read and emit, tangles of random edges, and the edges of every limit.

use crate::dice::{Dice, EDGES};
use crate::file;
use crate::graph::*;

/// A graph in the making, of any size and not yet checked.
#[derive(Clone, Debug)]
pub struct Draft {
    pub registers: u32,
    pub entry: u32,
    pub rows: Vec<Row>,
}

impl Draft {
    pub fn graph(&self) -> Graph {
        Graph {
            registers: self.registers,
            nodes: self.rows.len() as u32,
            entry: self.entry,
        }
    }

    pub fn numbers(&self) -> Vec<u32> {
        file::numbers(&self.graph(), &self.rows.concat())
    }

    /// The file of the draft, which no reader need accept.
    pub fn file(&self) -> Vec<u8> {
        file::encode(&self.numbers())
    }

    /// Sends every edge and the entry through a renumbering.
    fn renumber(&mut self, new: &[u32]) {
        for row in &mut self.rows {
            for word in target_words(row[0]) {
                row[word] = new[row[word] as usize];
            }
        }
        self.entry = new[self.entry as usize];
    }

    /// Sends every edge to one node, and the entry if it is there, to another.
    pub fn redirect(&mut self, from: u32, to: u32) {
        let mut new: Vec<u32> = (0..self.rows.len() as u32).collect();
        new[from as usize] = to;
        self.renumber(&new);
    }

    /// Numbers the nodes in a random order.
    pub fn shuffle(&mut self, dice: &mut Dice) {
        let mut order: Vec<u32> = (0..self.rows.len() as u32).collect();
        dice.shuffle(&mut order);
        self.renumber(&order);
        let old = self.rows.clone();
        for (node, row) in old.iter().enumerate() {
            self.rows[order[node] as usize] = *row;
        }
    }

    /// Drops what no path from the entry reaches.
    fn prune(&mut self) {
        let alive = crate::table::reached(&self.graph(), &self.rows.concat());
        let mut kept = 0;
        let new: Vec<u32> = alive
            .iter()
            .map(|&lives| {
                kept += u32::from(lives);
                kept.saturating_sub(1)
            })
            .collect();
        self.renumber_alive(&alive, &new);
    }

    fn renumber_alive(&mut self, alive: &[bool], new: &[u32]) {
        let mut alive = alive.iter();
        self.rows
            .retain(|_| *alive.next().expect("a mark for each row"));
        self.renumber(new);
    }

    /// Puts a chain of constants before the entry until there are enough nodes.
    fn pad(&mut self, dice: &mut Dice, nodes: usize) {
        while self.rows.len() < nodes {
            let d = dice.below(self.registers);
            let next = self.entry;
            self.entry = self.rows.len() as u32;
            self.rows.push([CONST, d, dice.word(), next, 0, 0]);
        }
    }
}

/// The words of a row that are targets.
fn target_words(kind: u32) -> Vec<usize> {
    match kind {
        BRANCH | BRANCH_WORD => vec![4, 5],
        _ => next_word(kind).into_iter().collect(),
    }
}

/// A graph of one of the shapes.
pub fn any_shape(dice: &mut Dice) -> Draft {
    let mut draft = match dice.weighted(&[43, 18, 8, 5, 4, 4, 10, 4, 3, 1]) {
        0 => structured_any(dice),
        1 => tangle(dice),
        2 => tiny(dice),
        3 => chain(dice),
        4 => self_jump(dice),
        5 => dead_pair(dice),
        6 => catching(dice),
        7 => sized(dice),
        8 => all_branches(dice),
        // Shuffled, some of its targets would take one byte less.
        _ => return longest(dice),
    };
    if dice.percent(50) {
        draft.shuffle(dice);
    }
    draft
}

fn structured_any(dice: &mut Dice) -> Draft {
    let registers = match dice.below(8) {
        0 => 62,
        1 => dice.between(60, 64),
        2 => dice.between(25, 59),
        _ => dice.between(7, 24),
    };
    let nodes = match dice.below(12) {
        0 => dice.between(60, 256),
        1..=4 => dice.between(25, 60),
        _ => dice.between(4, 25),
    };
    let mut draft = structured(dice, registers, nodes as usize);
    if dice.percent(15) {
        retarget(dice, &mut draft);
    }
    draft
}

/// Points some edges elsewhere, which makes loops that may not end.
fn retarget(dice: &mut Dice, draft: &mut Draft) {
    for _ in 0..dice.between(1, 3) {
        let node = dice.below(draft.rows.len() as u32) as usize;
        let words = target_words(draft.rows[node][0]);
        if !words.is_empty() {
            let word = dice.pick(&words);
            draft.rows[node][word] = dice.below(draft.rows.len() as u32);
        }
    }
    if dice.percent(80) {
        draft.prune();
    }
}

/// Builds a program from its end to its beginning: each statement is given
/// the node that follows it and answers its own first node.
struct Builder<'a> {
    dice: &'a mut Dice,
    rows: Vec<Row>,
    registers: u32,
    nodes: usize,
}

/// A program with counted loops; the top five registers are kept for them.
pub fn structured(dice: &mut Dice, registers: u32, nodes: usize) -> Draft {
    let mut builder = Builder {
        dice,
        rows: Vec::new(),
        registers,
        nodes,
    };
    let a = builder.free();
    let end = builder.push([RET, a, 0, 0, 0, 0]);
    let statements = builder.dice.between(3, 30);
    let body = builder.block(statements, 3, end);
    let one = builder.one();
    let entry = builder.push([CONST, one, 1, body, 0, 0]);
    Draft {
        registers,
        entry,
        rows: builder.rows,
    }
}

impl Builder<'_> {
    fn push(&mut self, row: Row) -> u32 {
        self.rows.push(row);
        self.rows.len() as u32 - 1
    }

    /// A register that no loop counts in.
    fn free(&mut self) -> u32 {
        self.dice.below(self.registers - 5)
    }

    fn one(&self) -> u32 {
        self.registers - 1
    }

    fn block(&mut self, statements: u32, depth: u32, next: u32) -> u32 {
        (0..statements).fold(next, |next, _| self.statement(depth, next))
    }

    fn statement(&mut self, depth: u32, next: u32) -> u32 {
        // The first node is still to come, and no statement starts with more than three.
        if self.rows.len() + 4 > self.nodes {
            return next;
        }
        let nested = if depth > 0 { 1 } else { 0 };
        match self
            .dice
            .weighted(&[18, 26, 14, 14, 14, 12 * nested, 4 * nested, 2])
        {
            0 => {
                let (d, k) = (self.free(), self.dice.word());
                self.push([CONST, d, k, next, 0, 0])
            }
            1 => {
                let (o, d) = (self.dice.below(7), self.free());
                let (a, b) = (self.free(), self.dice.below(self.registers));
                self.push([OP, o, d, a, b, next])
            }
            2 => {
                let d = self.free();
                self.push([IN, d, next, 0, 0, 0])
            }
            3 => {
                let port = self.dice.pick(&[0, 1, 2, 127, 128, 254, 255]);
                let a = self.dice.below(self.registers);
                self.push([OUT, port, a, next, 0, 0])
            }
            4 => self.branch(depth, next),
            5 => self.counted(depth, next),
            6 => self.shifted(depth, next),
            _ => self.early_end(next),
        }
    }

    /// A test of random registers or words; its targets are set later.
    fn test(&mut self) -> u32 {
        let (c, a) = (self.dice.below(6), self.free());
        let row = if self.dice.percent(40) {
            let b = self.free();
            [BRANCH, c, a, b, 0, 0]
        } else {
            [BRANCH_WORD, c, a, self.dice.word(), 0, 0]
        };
        self.push(row)
    }

    fn branch(&mut self, depth: u32, next: u32) -> u32 {
        let test = self.test();
        let then = self.arm(depth, next);
        let other = self.arm(depth, next);
        self.rows[test as usize][4] = then;
        self.rows[test as usize][5] = other;
        test
    }

    /// One side of a branch: a block, nothing, or a node made before.
    fn arm(&mut self, depth: u32, next: u32) -> u32 {
        match self.dice.below(30) {
            0..=17 => {
                let statements = self.dice.between(1, 4);
                self.block(statements, depth.saturating_sub(1), next)
            }
            18 => self.dice.below(self.rows.len() as u32 - 1),
            _ => next,
        }
    }

    /// A loop of a few rounds, tested at its head or at its end.
    fn counted(&mut self, depth: u32, next: u32) -> u32 {
        let (i, one) = (self.registers - 1 - depth, self.one());
        let rounds = match self.dice.below(40) {
            0 => self.dice.between(50, 900),
            1..=4 => self.dice.between(5, 30),
            _ => self.dice.between(1, 4),
        };
        let c = self.dice.pick(&[1, 2, 4]);
        let test = self.push([BRANCH_WORD, c, i, rounds, 0, next]);
        let count = self.push([OP, 0, i, i, one, test]);
        let statements = self.dice.between(0, 5);
        let body = self.block(statements, depth - 1, count);
        self.rows[test as usize][4] = body;
        let first = if self.dice.percent(60) { test } else { body };
        self.push([CONST, i, 0, first, 0, 0])
    }

    /// A loop that shifts a word to nothing.
    fn shifted(&mut self, depth: u32, next: u32) -> u32 {
        let (i, one) = (self.registers - 1 - depth, self.one());
        let o = self.dice.between(5, 6);
        let test = self.push([BRANCH_WORD, 1, i, 0, 0, next]);
        let shift = self.push([OP, o, i, i, one, test]);
        let statements = self.dice.between(0, 2);
        let body = self.block(statements, depth - 1, shift);
        self.rows[test as usize][4] = body;
        let start = self.dice.pick(&EDGES);
        self.push([CONST, i, start, test, 0, 0])
    }

    fn early_end(&mut self, next: u32) -> u32 {
        let test = self.test();
        let a = self.free();
        let end = self.push([RET, a, 0, 0, 0, 0]);
        let swap = self.dice.percent(50);
        self.rows[test as usize][4] = if swap { next } else { end };
        self.rows[test as usize][5] = if swap { end } else { next };
        test
    }
}

/// Random kinds and random edges, most of them forward.
fn tangle(dice: &mut Dice) -> Draft {
    let registers = match dice.below(6) {
        0 => dice.between(60, 64),
        _ => dice.between(1, 8),
    };
    let nodes = match dice.below(10) {
        0 => dice.between(30, 256),
        _ => dice.between(2, 30),
    };
    let mut draft = Draft {
        registers,
        entry: 0,
        rows: Vec::new(),
    };
    let catches = u32::from(dice.percent(15));
    for node in 0..nodes {
        draft
            .rows
            .push(random_row(dice, registers, nodes, node, catches));
    }
    if dice.percent(80) {
        draft.prune();
    }
    draft
}

fn random_row(dice: &mut Dice, registers: u32, nodes: u32, node: u32, catches: u32) -> Row {
    let kind = 1 + dice.weighted(&[14, 22, 14, 20, 10, 14, 8, 6 * catches]) as u32;
    let forward = dice.percent(85);
    let mut target = || {
        if forward && node + 1 < nodes {
            dice.between(node + 1, (node + 5).min(nodes - 1))
        } else {
            dice.below(nodes)
        }
    };
    let (then, other) = (target(), target());
    let mut register = || dice.below(registers);
    let (d, a, b) = (register(), register(), register());
    match kind {
        CONST => [kind, d, dice.word(), then, 0, 0],
        OP => [kind, dice.below(7), d, a, b, then],
        BRANCH => [kind, dice.below(6), a, b, then, other],
        BRANCH_WORD => [kind, dice.below(6), a, dice.word(), then, other],
        IN => [kind, d, then, 0, 0, 0],
        OUT => [kind, dice.pick(&[0, 1, 7, 255]), a, then, 0, 0],
        RET => [kind, a, 0, 0, 0, 0],
        _ => [CATCH, 0, 0, 0, 0, 0],
    }
}

fn tiny(dice: &mut Dice) -> Draft {
    let registers = dice.between(1, 3);
    let nodes = dice.between(1, 4);
    let catches = u32::from(dice.percent(20));
    let rows = (0..nodes)
        .map(|node| random_row(dice, registers, nodes, node, catches))
        .collect();
    let mut draft = Draft {
        registers,
        entry: dice.below(nodes),
        rows,
    };
    if dice.percent(60) {
        draft.prune();
    }
    draft
}

/// A straight line that ends, or goes back to its head or into its middle.
fn chain(dice: &mut Dice) -> Draft {
    let registers = dice.between(1, 10);
    let length = dice.between(1, 40);
    let mut rows: Vec<Row> = Vec::new();
    for node in 0..length {
        let next = node + 1;
        let (d, a) = (dice.below(registers), dice.below(registers));
        rows.push(match dice.below(4) {
            0 => [CONST, d, dice.word(), next, 0, 0],
            1 => [OP, dice.below(7), d, a, d, next],
            2 => [IN, d, next, 0, 0, 0],
            _ => [OUT, dice.below(256), a, next, 0, 0],
        });
    }
    rows.push(match dice.below(3) {
        0 => [CONST, 0, 1, dice.below(length + 1), 0, 0],
        _ => [RET, dice.below(registers), 0, 0, 0, 0],
    });
    Draft {
        registers,
        entry: 0,
        rows,
    }
}

/// A program in which some node goes to itself.
fn self_jump(dice: &mut Dice) -> Draft {
    let mut draft = structured(dice, 8, 12);
    let node = dice.below(draft.rows.len() as u32);
    let row = &mut draft.rows[node as usize];
    for word in target_words(row[0]) {
        if word != 5 || row[0] == OP || dice.percent(30) {
            row[word] = node;
        }
    }
    if dice.percent(85) {
        draft.prune();
    }
    draft
}

/// A program beside which two nodes jump only to each other.
fn dead_pair(dice: &mut Dice) -> Draft {
    let mut draft = structured(dice, 9, 14);
    let first = draft.rows.len() as u32;
    draft.rows.push([CONST, 0, 5, first + 1, 0, 0]);
    draft.rows.push([OUT, 3, 0, first, 0, 0]);
    draft
}

/// A program with catch nodes, of which no source may have any; one is
/// reached by way of an event.
fn catching(dice: &mut Dice) -> Draft {
    let nodes = dice.between(8, 40) as usize;
    let mut draft = structured(dice, 10, nodes);
    let catch = draft.rows.len() as u32;
    draft.rows.push([CATCH, 0, 0, 0, 0, 0]);
    draft
        .rows
        .push([OUT, dice.below(4), dice.below(10), catch, 0, 0]);
    let share = dice.pick(&[8, 15, 30, 90]);
    for row in &mut draft.rows {
        if is_branch(row) && dice.percent(share) {
            row[4 + dice.below(2) as usize] = catch + dice.below(2);
        }
    }
    draft
}

/// A program of a size at or beyond a limit.
fn sized(dice: &mut Dice) -> Draft {
    let registers = dice.pick(&[7, 61, 62, 63, 64]);
    let nodes = dice.pick(&[255, 256, 256, 256, 257, 300, 1000, 2049, 2050, 2051]);
    sized_program(dice, registers, nodes)
}

/// A program of just so many nodes, at least 250: what lacks is put before its entry.
pub fn sized_program(dice: &mut Dice, registers: u32, nodes: usize) -> Draft {
    let inner = dice.between(10, 250) as usize;
    let mut draft = structured(dice, registers, inner);
    draft.pad(dice, nodes);
    draft
}

/// Nothing but branches, up to the largest hardened graph there is.
fn all_branches(dice: &mut Dice) -> Draft {
    let nodes = dice.pick(&[1, 2, 3, 16, 255, 256, 256, 257]);
    branches(dice, nodes)
}

/// So many branches, the last at times a `ret`.
pub fn branches(dice: &mut Dice, nodes: u32) -> Draft {
    let registers = dice.pick(&[1, 3, 62, 62]);
    let near = dice.percent(60);
    let mut rows: Vec<Row> = (0..nodes)
        .map(|node| {
            let next = (node + 1) % nodes;
            let other = if near { next } else { dice.below(nodes) };
            let (c, a) = (dice.below(6), dice.below(registers));
            [BRANCH_WORD, c, a, dice.word(), next, other]
        })
        .collect();
    if dice.percent(60) {
        rows[nodes as usize - 1] = [RET, 0, 0, 0, 0, 0];
    }
    Draft {
        registers,
        entry: 0,
        rows,
    }
}

/// The longest file there is: branches with words of five bytes and targets
/// of two, as many as a runnable graph may have.
pub fn longest(dice: &mut Dice) -> Draft {
    let nodes = RUNNABLE.nodes;
    let row = |dice: &mut Dice| {
        let word = dice.between(1 << 28, u32::MAX - 1);
        let (then, other) = (dice.between(128, nodes - 1), dice.between(128, nodes - 1));
        [
            BRANCH_WORD,
            dice.below(6),
            dice.below(64),
            word,
            then,
            other,
        ]
    };
    Draft {
        registers: RUNNABLE.registers,
        entry: dice.between(128, nodes - 1),
        rows: (0..nodes).map(|_| row(dice)).collect(),
    }
}
