//! There and back: a file that was written is read as the same graph, and what was read is written as
//! the same bytes, both by the proved entry points.

use crate::call::{Answered, Call, Entry, Held};
use crate::sides;
use linked::Header;
use second::graph::NODE_WORDS;

/// Words and bytes behind what comes back; none of them is 0.
const BEHIND: usize = 7;
const WORD: u32 = 0xdead_0001;
const BYTE: u8 = 0xa5;

/// Whether what an accepted call read or wrote comes back; other calls have nothing to bring back.
pub fn comes_back(call: &Call, answered: &Answered) -> Option<Result<(), String>> {
    let numbers = &answered.numbers;
    match (call.entry, answered.refusal()) {
        (Entry::Read, 0) => {
            let header = Header {
                registers: numbers[2],
                nodes: numbers[3],
                entry: numbers[4],
            };
            let table = answered.lent.words[0].clone();
            Some(written(&Held { header, table }, call.bytes))
        }
        (Entry::Write, 0) => Some(read(&answered.lent.bytes[..numbers[2]], call.held)),
        _ => None,
    }
}

/// Reads a file, which has to be that of this graph, and writes again what was read.
fn read(file: &[u8], held: &Held) -> Result<(), String> {
    let words = held.header.nodes * NODE_WORDS;
    let mut call = Call::new(Entry::Read, file, held);
    call.lent.words = vec![vec![WORD; words + BEHIND]];
    let answered = sides::proved(&call)?;
    let Header {
        registers,
        nodes,
        entry,
    } = held.header;
    let table = [&held.table[..words], &[WORD; BEHIND]].concat();
    if answered.numbers != [0, 0, registers, nodes, entry] || answered.lent.words != [table] {
        return Err(format!("what was written is read as {answered}"));
    }
    let [table] = answered.lent.words.try_into().expect("one lent table");
    let header = held.header;
    written(&Held { header, table }, file)
}

/// Writes a graph, whose file has to be these bytes.
fn written(held: &Held, file: &[u8]) -> Result<(), String> {
    let mut call = Call::new(Entry::Write, &[], held);
    call.lent.bytes = vec![BYTE; file.len() + BEHIND];
    let answered = sides::proved(&call)?;
    let bytes = [file, &[BYTE; BEHIND]].concat();
    if answered.numbers != [0, 0, file.len()] || answered.lent.bytes != bytes {
        return Err(format!("what was read is written as {answered}"));
    }
    Ok(())
}
