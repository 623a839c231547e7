//! Headers and tables that went wrong: numbers out of range or huge, words no kind has, tables cut
//! short or with words behind them, nodes that no path reaches.

use crate::call::Held;
use linked::Header;
use second::dice::Dice;
use second::graph::*;
use second::shapes::Draft;

/// The table of a draft, sound or with one kind of damage, and of some length.
pub fn held(dice: &mut Dice, draft: &Draft) -> Held {
    let mut held = sound(draft);
    match dice.weighted(&[44, 14, 22, 8, 12]) {
        0 => {}
        1 => change_header(dice, &mut held.header),
        2 => change_word(dice, &mut held),
        // Of two the first in the order of checks counts.
        3 => {
            change_word(dice, &mut held);
            if dice.percent(50) {
                change_word(dice, &mut held);
            } else {
                change_header(dice, &mut held.header);
            }
        }
        _ => cut_off(dice, &mut held),
    }
    change_length(dice, &mut held.table);
    held
}

pub fn sound(draft: &Draft) -> Held {
    Held {
        header: Header {
            registers: draft.registers as usize,
            nodes: draft.rows.len(),
            entry: draft.entry as usize,
        },
        table: draft.rows.concat(),
    }
}

/// Words at every limit of a field, and beyond it.
pub fn odd_words(header: &Header) -> Vec<u32> {
    let (r, n) = (header.registers as u32, header.nodes as u32);
    let near = [r.wrapping_sub(1), r, r + 1, n.wrapping_sub(1), n, n + 1];
    let fixed = [0, 1, 5, 6, 7, 8, 9, 255, 256, 1 << 31, u32::MAX];
    [&near[..], &fixed].concat()
}

/// Numbers at every limit of R, N and entry, beyond it, and past what a word holds; six times the
/// last but two is 2 where products wrap.
pub fn odd_numbers(header: &Header) -> Vec<usize> {
    let beyond = u32::MAX as usize + 1;
    let Header {
        registers,
        nodes,
        entry,
    } = *header;
    let near = [registers + 1, nodes - 1, nodes + 1, entry + 1];
    let fixed = [0, 1, 62, 63, 64, 65, 255, 256, 257, 2050, 2051];
    let past = [
        beyond - 1,
        beyond,
        beyond + registers,
        beyond + nodes,
        beyond + entry,
        usize::MAX / 6 + 1,
        1 << 63,
        usize::MAX,
    ];
    [&near[..], &fixed, &past].concat()
}

/// The numbers of a header, R, N and entry.
pub fn numbers(header: &mut Header) -> [&mut usize; 3] {
    [&mut header.registers, &mut header.nodes, &mut header.entry]
}

fn change_header(dice: &mut Dice, header: &mut Header) {
    let number = dice.pick(&odd_numbers(header));
    *numbers(header)[dice.below(3) as usize] = number;
}

/// Puts another word into a node: mostly any node, often the last.
fn change_word(dice: &mut Dice, held: &mut Held) {
    let words = held.table.len() as u32;
    let place = match dice.below(4) {
        0 => words - 1 - dice.below(NODE_WORDS as u32),
        _ => dice.below(words),
    };
    held.table[place as usize] = match dice.below(8) {
        0 => dice.word(),
        _ => dice.pick(&odd_words(&held.header)),
    };
}

/// Makes a node end the run, or go to itself, so that what came after it may be dead.
fn cut_off(dice: &mut Dice, held: &mut Held) {
    let node = dice.below(held.header.nodes as u32);
    let row = match dice.below(2) {
        0 => [RET, 0, 0, 0, 0, 0],
        _ => [CONST, 0, 0, node, 0, 0],
    };
    let first = node as usize * NODE_WORDS;
    held.table[first..first + NODE_WORDS].copy_from_slice(&row);
}

/// As it is, with words behind it that must not be looked at, or too short.
pub fn change_length(dice: &mut Dice, table: &mut Vec<u32>) {
    let words = table.len();
    match dice.weighted(&[30, 52, 10, 5, 3]) {
        0 => {}
        1 => {
            let more = dice.between(1, 3 * NODE_WORDS as u32);
            table.extend((0..more).map(|_| dice.word()));
        }
        2 => table.truncate(words - 1),
        3 => table.truncate(dice.below(words as u32) as usize),
        _ => table.clear(),
    }
}

/// A source with a node of every kind, and half the time a catch, which no source may have.
fn every_kind(dice: &mut Dice) -> Held {
    let registers = dice.between(1, 9);
    let mut kinds = [CONST, OP, BRANCH, BRANCH_WORD, IN, OUT];
    dice.shuffle(&mut kinds);
    let (ends, catches) = (kinds.len() as u32, dice.below(2));
    let mut rows: Vec<Row> = Vec::new();
    for (node, &kind) in kinds.iter().enumerate() {
        let (next, other) = (node as u32 + 1, ends + catches);
        let (a, b) = (dice.below(registers), dice.below(registers));
        rows.push(match kind {
            CONST => [kind, a, dice.word(), next, 0, 0],
            OP => [kind, dice.below(7), a, b, a, next],
            BRANCH => [kind, dice.below(6), a, b, next, other],
            BRANCH_WORD => [kind, dice.below(6), a, dice.word(), other, next],
            IN => [kind, a, next, 0, 0, 0],
            _ => [kind, dice.below(256), a, next, 0, 0],
        });
    }
    rows.push([RET, dice.below(registers), 0, 0, 0, 0]);
    if catches > 0 {
        rows.push([CATCH, 0, 0, 0, 0, 0]);
    }
    sound(&Draft {
        registers,
        entry: 0,
        rows,
    })
}

/// Every word of such a table in turn at every limit, and every number of its header.
pub fn swept(dice: &mut Dice) -> Vec<Held> {
    let whole = every_kind(dice);
    let mut all = Vec::new();
    for place in 0..whole.table.len() {
        for word in odd_words(&whole.header) {
            let mut held = whole.clone();
            held.table[place] = word;
            all.push(held);
        }
    }
    for which in 0..3 {
        for number in odd_numbers(&whole.header) {
            let mut held = whole.clone();
            *numbers(&mut held.header)[which] = number;
            all.push(held);
        }
    }
    all
}
