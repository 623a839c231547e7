//! Files that went wrong on the way: cut, changed, lengthened, numbers out
//! of range or in a longer form.

use crate::dice::{Dice, EDGES};
use crate::file;
use crate::graph::*;
use crate::shapes::Draft;

/// The bytes of a graph's file with one kind of damage done.
pub fn damaged(dice: &mut Dice, draft: &Draft) -> Vec<u8> {
    let numbers = draft.numbers();
    let mut bytes = file::encode(&numbers);
    match dice.below(12) {
        0 => file::encode(&other_number(dice, &numbers)),
        1..=4 => at_a_limit(dice, draft),
        5 => {
            bytes.truncate(dice.below(bytes.len() as u32 + 1) as usize);
            bytes
        }
        6 => {
            let place = dice.below(bytes.len() as u32) as usize;
            bytes[place] ^= 1 << dice.below(8);
            bytes
        }
        7 => {
            for _ in 0..dice.between(1, 6) {
                bytes.push(dice.draw() as u8);
            }
            bytes
        }
        8 | 9 => long_form(dice, &numbers),
        10 => moved(dice, bytes),
        _ => very_long(dice, bytes),
    }
}

/// What a field means, as far as it has a limit.
#[derive(Clone, Copy, PartialEq)]
pub enum Limited {
    Kind,
    Operator,
    Comparison,
    Port,
    Register,
    Target,
}

pub fn meaning(kind: u32, word: usize) -> Option<Limited> {
    match (kind, word) {
        (_, 0) => Some(Limited::Kind),
        (OP, 1) => Some(Limited::Operator),
        (BRANCH | BRANCH_WORD, 1) => Some(Limited::Comparison),
        (OUT, 1) => Some(Limited::Port),
        (CONST | IN | RET, 1) | (OP, 2..=4) | (OUT, 2) => Some(Limited::Register),
        (BRANCH, 2 | 3) | (BRANCH_WORD, 2) => Some(Limited::Register),
        (BRANCH | BRANCH_WORD, 4 | 5) => Some(Limited::Target),
        _ if next_word(kind) == Some(word) => Some(Limited::Target),
        _ => None,
    }
}

/// Puts one field at the last value it may have, or at the first it may not.
fn at_a_limit(dice: &mut Dice, draft: &Draft) -> Vec<u8> {
    use Limited::*;
    let mut draft = draft.clone();
    let wanted = dice.pick(&[Kind, Operator, Comparison, Port, Register, Target]);
    let places: Vec<(usize, usize)> = (0..draft.rows.len())
        .flat_map(|node| (0..NODE_WORDS).map(move |word| (node, word)))
        .filter(|&(node, word)| meaning(draft.rows[node][0], word) == Some(wanted))
        .collect();
    if !places.is_empty() {
        let (node, word) = dice.pick(&places);
        let beyond = dice.below(3).min(1);
        draft.rows[node][word] = match wanted {
            Kind => dice.pick(&[0, CATCH + 1]),
            Operator => LAST_OPERATOR + beyond,
            Comparison => LAST_COMPARISON + beyond,
            Port => LAST_PORT + beyond,
            Register => draft.registers - 1 + beyond,
            Target => draft.rows.len() as u32 - 1 + beyond,
        };
    }
    draft.file()
}

/// Puts a number at some limit, or one off it, in place of another.
fn other_number(dice: &mut Dice, numbers: &[u32]) -> Vec<u32> {
    let mut numbers = numbers.to_vec();
    let place = match dice.below(4) {
        0 => dice.below(3.min(numbers.len() as u32)),
        _ => dice.below(numbers.len() as u32),
    };
    let (registers, nodes) = (numbers[0], numbers[1]);
    let limits = [
        0,
        5,
        6,
        7,
        8,
        9,
        62,
        63,
        64,
        65,
        255,
        256,
        257,
        2050,
        2051,
        registers.wrapping_sub(1),
        registers,
        nodes.wrapping_sub(1),
        nodes,
    ];
    numbers[place as usize] = match dice.below(5) {
        0 => dice.pick(&EDGES),
        _ => dice.pick(&limits),
    };
    numbers
}

/// Writes one number with groups of zeros after it, a fifth byte over 15,
/// or no end at all.
fn long_form(dice: &mut Dice, numbers: &[u32]) -> Vec<u8> {
    let place = dice.below(numbers.len() as u32) as usize;
    let mut bytes = file::encode(&numbers[..place]);
    let mut number = file::encode(&numbers[place..=place]);
    let last = number.len() - 1;
    number[last] |= 0x80;
    let length = dice.between(1, 4) as usize;
    number.resize(length.max(number.len()), 0x80);
    number.push(match dice.below(5) {
        0 => 0x10,
        1 => 0x80,
        2 => dice.draw() as u8,
        _ => 0,
    });
    bytes.extend(number);
    if dice.percent(80) {
        bytes.extend(file::encode(&numbers[place + 1..]));
    }
    bytes
}

/// Takes some bytes out, or doubles them.
fn moved(dice: &mut Dice, bytes: Vec<u8>) -> Vec<u8> {
    let first = dice.below(bytes.len() as u32) as usize;
    let end = bytes.len().min(first + dice.between(1, 4) as usize);
    let mut changed = bytes[..first].to_vec();
    if dice.percent(50) {
        changed.extend(&bytes[first..end]);
        changed.extend(&bytes[first..end]);
    }
    changed.extend(&bytes[end..]);
    changed
}

/// Longer than the first bytes that decide; still within a pipe's hold.
fn very_long(dice: &mut Dice, mut bytes: Vec<u8>) -> Vec<u8> {
    let length = dice.pick(&[24_606, 32_767, 32_768, 32_769, 40_000, 60_000]);
    let filler = dice.draw() as u8;
    bytes.resize(length, filler);
    bytes
}
