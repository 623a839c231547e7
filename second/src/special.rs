//! Cases made for a purpose, in turn by their index, so that no comparison of
//! some length lacks them: what chance alone makes too seldom.

use crate::damage::{meaning, Limited};
use crate::dice::Dice;
use crate::file;
use crate::graph::*;
use crate::run::LAST_BUDGET;
use crate::shapes::{branches, longest, sized_program, structured, Draft};

#[derive(Clone, Copy, Debug, PartialEq, Eq)]
pub enum Purpose {
    /// Disturbed runs that differ from the reference in one event.
    OneEvent,
    /// The same over more than 1,000 positions and words of events.
    Many,
    /// Disturbed runs of over 50,000 steps that return.
    Long,
    /// A `ret` of register 63.
    LastRegister,
    /// R or N one beyond its range.
    OutOfRange,
    /// A number in a longer form than it needs.
    LongForm,
    /// R from 25 to 59.
    Registers,
    /// N from 258 to 2,048.
    Nodes,
    /// The longest file there is.
    Longest,
    /// A source whose hardened file is a long one.
    Branches,
}

/// What a case is for, and how many cases had the same purpose before it.
pub fn purpose(index: u64) -> Option<(Purpose, u64)> {
    let turn = index / 40;
    Some(match (index % 40, turn % 5) {
        (0, _) => (Purpose::OneEvent, 2 * turn),
        (12, _) => (Purpose::OneEvent, 2 * turn + 1),
        (5, _) => (Purpose::LastRegister, turn),
        (15, _) => (Purpose::OutOfRange, turn),
        (20, _) => (Purpose::LongForm, turn),
        (25, _) => (Purpose::Registers, turn),
        (30, _) => (Purpose::Nodes, turn),
        // These take the longest to answer.
        (35, 0) => (Purpose::Many, turn / 5),
        (35, 2) => (Purpose::Long, turn / 5),
        (35, 1) => (Purpose::Longest, turn / 5),
        (35, rest) => (Purpose::Branches, 2 * (turn / 5) + rest - 3),
        _ => return None,
    })
}

/// The file for a purpose.
pub fn special_file(dice: &mut Dice, (purpose, turn): (Purpose, u64)) -> Vec<u8> {
    let mut draft = match purpose {
        Purpose::OneEvent => {
            let rounds = dice.between(2, 9);
            guarded(dice, rounds, Guard::in_turn(turn))
        }
        Purpose::Many => {
            let rounds = dice.between(501, 700);
            guarded(dice, rounds, Guard::in_turn(turn))
        }
        Purpose::Long if turn % 2 == 0 => detour(dice),
        Purpose::Long => long_body(dice),
        Purpose::LastRegister => last_register(dice),
        Purpose::OutOfRange => return out_of_range(dice, turn),
        Purpose::LongForm => return longer_number(dice, turn),
        Purpose::Registers => {
            let (registers, nodes) = (dice.between(25, 59), dice.between(10, 60));
            structured(dice, registers, nodes as usize)
        }
        Purpose::Nodes => {
            let (registers, nodes) = (dice.between(7, 64), dice.between(258, 2048));
            sized_program(dice, registers, nodes as usize)
        }
        // Shuffled it would not be as long.
        Purpose::Longest => return longest(dice).file(),
        Purpose::Branches => {
            let nodes = dice.between(200, 256);
            branches(dice, nodes)
        }
    };
    if dice.percent(50) {
        draft.shuffle(dice);
    }
    draft.file()
}

/// How a round goes wrong when its test is inverted.
#[derive(Clone, Copy)]
enum Wrong {
    Value,
    Port,
    Silent,
    Twice,
}

impl Wrong {
    /// Nodes 7 and 8 of a guarded loop, which go on at 9.
    fn rows(self, port: u32, v: u32, one: u32, other: u32) -> [Row; 2] {
        match self {
            Wrong::Value => [[OP, 4, other, v, one, 8], [OUT, port, other, 9, 0, 0]],
            Wrong::Port => [[CONST, other, 1, 8, 0, 0], [OUT, port ^ 1, v, 9, 0, 0]],
            Wrong::Silent => [[CONST, other, 1, 8, 0, 0], [CONST, other, 2, 9, 0, 0]],
            Wrong::Twice => [[OUT, port, v, 8, 0, 0], [OUT, port, v, 9, 0, 0]],
        }
    }
}

#[derive(Clone, Copy)]
struct Guard {
    wrong: Wrong,
    /// One more event after the last round.
    closing: bool,
    /// Whether a wrong round ends in the catch; if not, the run returns.
    checked: bool,
}

impl Guard {
    fn in_turn(turn: u64) -> Self {
        Guard {
            wrong: match turn % 10 {
                4 => Wrong::Port,
                7 => Wrong::Silent,
                9 => Wrong::Twice,
                _ => Wrong::Value,
            },
            closing: turn % 4 < 2,
            checked: turn % 3 != 2,
        }
    }
}

/// A loop that emits an event each round, after a test that always holds.
/// Where the test is inverted, one event is wrong and a flag is set; where
/// the loop is left early, its counter tells.
fn guarded(dice: &mut Dice, rounds: u32, guard: Guard) -> Draft {
    let registers = dice.between(6, 64);
    let mut names: Vec<u32> = (0..registers).collect();
    dice.shuffle(&mut names);
    let [i, one, v, flag, zero, other] = [0, 1, 2, 3, 4, 5].map(|name| names[name]);
    let (port, start) = (dice.between(1, 254), dice.word());
    let by = dice.pick(&[i, one, zero]);
    let wrong = guard.wrong.rows(port, v, one, other);
    let closing = match guard.closing {
        true => [OUT, port ^ 1, one, 11, 0, 0],
        false => [CONST, other, 0, 11, 0, 0],
    };
    let check = match guard.checked {
        true => [BRANCH_WORD, 0, flag, 0, 12, 14],
        false => [CONST, other, 0, 13, 0, 0],
    };
    Draft {
        registers,
        entry: 0,
        rows: vec![
            [CONST, one, 1, 1, 0, 0],
            [CONST, v, start, 2, 0, 0],
            [BRANCH_WORD, 2, i, rounds, 3, 10],
            [BRANCH, 0, zero, zero, 4, 7],
            [OUT, port, v, 5, 0, 0],
            [OP, 0, v, v, by, 6],
            [OP, 0, i, i, one, 2],
            wrong[0],
            wrong[1],
            [CONST, flag, 1, 5, 0, 0],
            closing,
            check,
            [BRANCH_WORD, 0, i, rounds, 13, 14],
            [RET, v, 0, 0, 0, 0],
            [CATCH, 0, 0, 0, 0, 0],
        ],
    }
}

/// A chain of constants and operators over all but the last two registers,
/// its first node given; it goes on at `next`.
fn body(dice: &mut Dice, registers: u32, first: u32, length: u32, next: u32) -> Vec<Row> {
    (1..=length)
        .map(|node| {
            let after = if node == length { next } else { first + node };
            let mut free = || dice.below(registers - 2);
            let (d, a, b) = (free(), free(), free());
            match dice.percent(30) {
                true => [CONST, d, dice.word(), after, 0, 0],
                false => [OP, dice.below(7), d, a, b, after],
            }
        })
        .collect()
}

/// Rounds of so many steps that take more than half of the largest budget.
fn long_rounds(dice: &mut Dice, steps: u32) -> u32 {
    dice.between(LAST_BUDGET / 2 + 3_000, LAST_BUDGET - 5_000) / steps
}

/// One branch before the end, which inverted goes a very long way round.
fn detour(dice: &mut Dice) -> Draft {
    let registers = dice.between(4, 64);
    let (i, one) = (registers - 1, registers - 2);
    let length = dice.between(1, 30);
    let rounds = long_rounds(dice, length + 2);
    let (a, free) = (dice.below(registers), dice.below(registers - 2));
    let mut rows = vec![
        [CONST, free, dice.word(), 1, 0, 0],
        [BRANCH_WORD, 0, i, 0, 4, 2],
        [CONST, one, 1, 3, 0, 0],
        [BRANCH_WORD, 2, i, rounds, 6, 4],
        [RET, a, 0, 0, 0, 0],
        [OP, 0, i, i, one, 3],
    ];
    rows.extend(body(dice, registers, 6, length, 5));
    Draft {
        registers,
        entry: 0,
        rows,
    }
}

/// A loop of few rounds and a body so long that the run is long all the same.
fn long_body(dice: &mut Dice) -> Draft {
    let registers = dice.between(4, 64);
    let (i, one) = (registers - 1, registers - 2);
    let length = dice.between(900, 2000);
    let rounds = long_rounds(dice, length + 2);
    let mut rows = vec![
        [CONST, one, 1, 1, 0, 0],
        [BRANCH_WORD, 2, i, rounds, 4, 2],
        [RET, dice.below(registers), 0, 0, 0, 0],
        [OP, 0, i, i, one, 1],
    ];
    rows.extend(body(dice, registers, 4, length, 3));
    Draft {
        registers,
        entry: 0,
        rows,
    }
}

/// A program over 64 registers of which the last ones are used most, and
/// that returns the very last.
fn last_register(dice: &mut Dice) -> Draft {
    let last = RUNNABLE.registers - 1;
    let nodes = dice.between(5, 40) as usize;
    let mut draft = structured(dice, RUNNABLE.registers, nodes);
    for row in &mut draft.rows {
        for word in 1..NODE_WORDS {
            if meaning(row[0], word) == Some(Limited::Register) {
                row[word] = last - row[word];
            }
        }
        if row[0] == RET {
            row[1] = last;
        }
    }
    // The end was made first; what goes there now sets the register before it.
    let value = dice.between(1, u32::MAX - 1);
    let set = draft.rows.len() as u32;
    let end = 0;
    draft.redirect(end, set);
    draft.rows.push([CONST, last, value, end, 0, 0]);
    draft
}

/// A file whose R or N is beyond its range, mostly with a second fault behind
/// it: a reader that lets R pass would only meet the table's own refusal.
fn out_of_range(dice: &mut Dice, turn: u64) -> Vec<u8> {
    let nodes = dice.between(6, 30) as usize;
    let draft = structured(dice, 12, nodes);
    let mut numbers = draft.numbers();
    (numbers[0], numbers[1]) = match turn % 4 {
        0 => (0, numbers[1]),
        1 => (65, numbers[1]),
        2 => (numbers[0], 0),
        _ => (numbers[0], 2051),
    };
    let mut bytes = file::encode(&numbers);
    match turn / 4 % 4 {
        0 => bytes.push(dice.draw() as u8),
        1 => bytes.truncate(dice.between(3, bytes.len() as u32 - 1) as usize),
        2 => {
            numbers[3] = CATCH + 1;
            bytes = file::encode(&numbers);
        }
        _ => (),
    }
    bytes
}

/// A file that is right but for one number, which has groups of zeros at its
/// end: R, a port, or any.
fn longer_number(dice: &mut Dice, turn: u64) -> Vec<u8> {
    let draft = guarded(dice, 3, Guard::in_turn(turn));
    let numbers = draft.numbers();
    let place = match turn % 4 {
        0 => 0,
        1 | 2 => {
            let ports = ports(&draft.rows);
            dice.pick(&ports)
        }
        _ => dice.below(numbers.len() as u32) as usize,
    };
    let mut number = file::encode(&numbers[place..=place]);
    if number.len() < 5 {
        let length = dice.between(number.len() as u32 + 1, 5) as usize;
        number.resize(length, 0);
        number[..length - 1]
            .iter_mut()
            .for_each(|byte| *byte |= 0x80);
    }
    let before = file::encode(&numbers[..place]);
    [before, number, file::encode(&numbers[place + 1..])].concat()
}

/// Where the ports stand among the numbers of a file.
fn ports(rows: &[Row]) -> Vec<usize> {
    let mut next = 3;
    let mut ports = Vec::new();
    for row in rows {
        if row[0] == OUT {
            ports.push(next + 1);
        }
        next += 1 + field_count(row[0]);
    }
    ports
}
