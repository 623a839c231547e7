//! "The file": seven-bit groups, the reader of graph files and their writer.

use crate::graph::*;
use crate::refusal::{refuse, Refusal};
use crate::table::check_runnable;

/// No accepted file has more bytes.
pub const LONGEST: usize = 24_605;

/// Reads a graph file into the first 6N words of a lent table. A refusal
/// leaves the table as it stood, so the words are gathered before any is put.
pub fn read(bytes: &[u8], table: &mut [u32]) -> Result<Graph, Refusal> {
    let mut reader = Reader::new(bytes);
    let registers = reader.ranged(RUNNABLE.registers)?;
    let nodes = reader.ranged(RUNNABLE.nodes)?;
    let needed = nodes as usize * NODE_WORDS;
    if table.len() < needed {
        return refuse(4, needed);
    }
    (reader.registers, reader.nodes) = (registers, nodes);
    let entry = reader.target()?;
    let mut words = Vec::with_capacity(needed);
    for _ in 0..nodes {
        words.extend(reader.node()?);
    }
    if reader.next < bytes.len() {
        return refuse(10, reader.next);
    }
    table[..needed].copy_from_slice(&words);
    Ok(Graph {
        registers,
        nodes,
        entry,
    })
}

/// Where the reader stands, and R and N once they are known.
struct Reader<'a> {
    bytes: &'a [u8],
    next: usize,
    registers: u32,
    nodes: u32,
}

type Field = Result<u32, Refusal>;

impl<'a> Reader<'a> {
    fn new(bytes: &'a [u8]) -> Self {
        Reader {
            bytes,
            next: 0,
            registers: 0,
            nodes: 0,
        }
    }

    fn node(&mut self) -> Result<Row, Refusal> {
        let start = self.next;
        let kind = self.word()?;
        Ok(match kind {
            CONST => [kind, self.register()?, self.word()?, self.target()?, 0, 0],
            OP => [
                kind,
                self.at_most(LAST_OPERATOR)?,
                self.register()?,
                self.register()?,
                self.register()?,
                self.target()?,
            ],
            BRANCH | BRANCH_WORD => [
                kind,
                self.at_most(LAST_COMPARISON)?,
                self.register()?,
                self.operand(kind)?,
                self.target()?,
                self.target()?,
            ],
            IN => [kind, self.register()?, self.target()?, 0, 0, 0],
            OUT => [
                kind,
                self.at_most(LAST_PORT)?,
                self.register()?,
                self.target()?,
                0,
                0,
            ],
            RET => [kind, self.register()?, 0, 0, 0, 0],
            CATCH => [kind, 0, 0, 0, 0, 0],
            _ => return refuse(5, start),
        })
    }

    fn operand(&mut self, kind: u32) -> Field {
        if kind == BRANCH {
            self.register()
        } else {
            self.word()
        }
    }

    fn ranged(&mut self, last: u32) -> Field {
        self.kept(3, |value| (1..=last).contains(&value))
    }

    fn at_most(&mut self, last: u32) -> Field {
        self.kept(5, |value| value <= last)
    }

    fn register(&mut self) -> Field {
        let registers = self.registers;
        self.kept(6, |value| value < registers)
    }

    fn target(&mut self) -> Field {
        let nodes = self.nodes;
        self.kept(7, |value| value < nodes)
    }

    /// Reads a number and holds it against its range.
    fn kept(&mut self, number: u32, rule: impl Fn(u32) -> bool) -> Field {
        let start = self.next;
        let value = self.word()?;
        if rule(value) {
            Ok(value)
        } else {
            refuse(number, start)
        }
    }

    fn word(&mut self) -> Field {
        let (value, next) = number(self.bytes, self.next)?;
        self.next = next;
        Ok(value)
    }
}

/// The number at an offset, and the offset after it.
pub fn number(bytes: &[u8], start: usize) -> Result<(u32, usize), Refusal> {
    let mut value = 0u32;
    for group in 0..5 {
        let Some(&byte) = bytes.get(start + group) else {
            return refuse(1, start);
        };
        // A fifth byte has four bits left for it; more is refused at once.
        if group == 4 && byte > 15 {
            return refuse(2, start);
        }
        value |= u32::from(byte & 0x7f) << (7 * group);
        if byte < 0x80 {
            let longer_than_needed = group > 0 && byte == 0;
            return if longer_than_needed {
                refuse(2, start)
            } else {
                Ok((value, start + group + 1))
            };
        }
    }
    unreachable!("a fifth byte of at most 15 ends the number")
}

/// Writes a runnable graph as its file over the first bytes of a lent buffer,
/// and answers how many they are. A refusal leaves the buffer as it stood.
pub fn write(graph: &Graph, table: &[u32], out: &mut [u8]) -> Result<usize, Refusal> {
    check_runnable(graph, table)?;
    let bytes = encode(&numbers(graph, table));
    let needed = bytes.len();
    if out.len() < needed {
        return refuse(15, needed);
    }
    out[..needed].copy_from_slice(&bytes);
    Ok(needed)
}

/// Appends a number in its shortest form.
fn put_number(bytes: &mut Vec<u8>, mut value: u32) {
    while value >= 0x80 {
        bytes.push(value as u8 | 0x80);
        value >>= 7;
    }
    bytes.push(value as u8);
}

/// The numbers of a graph's file, in order and without spare words; the rows
/// need not be those of a runnable graph.
pub fn numbers(graph: &Graph, table: &[u32]) -> Vec<u32> {
    let mut all = vec![graph.registers, graph.nodes, graph.entry];
    for node in 0..graph.nodes {
        let row = row(table, node);
        all.extend(&row[..=field_count(row[0])]);
    }
    all
}

/// The bytes of a list of numbers.
pub fn encode(numbers: &[u32]) -> Vec<u8> {
    let mut bytes = Vec::new();
    for &value in numbers {
        put_number(&mut bytes, value);
    }
    bytes
}
