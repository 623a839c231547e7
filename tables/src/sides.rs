//! Both sides of a call: the proved entry point and the second program's.

use crate::call::{Answered, Buffers, Call, Entry, Held};
use crate::lent::Lent;
use linked::Header;
use second::campaign::Score;
use second::graph::Graph;
use second::refusal::Refusal;
use second::run::{Answer, Outcome};

/// The proved side. Each number is a call of its own, on buffers that hold the same before; what
/// they hold after it has to be the same too, and nothing around them may have changed.
pub fn proved(call: &Call) -> Result<Answered, String> {
    let Buffers { words, bytes } = &call.lent;
    let mut words: Vec<Lent<u32>> = words.iter().map(|content| Lent::new(content)).collect();
    let mut bytes: Lent<u8> = Lent::new(bytes);
    let mut answered = Answered {
        numbers: Vec::new(),
        lent: Buffers::default(),
    };
    for part in 0..call.entry.numbers() {
        let lent = words.iter_mut().map(Lent::anew).collect();
        let number = proved_part(call, lent, bytes.anew(), part);
        answered.numbers.push(number);
        if !(words.iter().all(Lent::kept) && bytes.kept()) {
            return Err(format!(
                "number {part}: something beside a lent buffer changed"
            ));
        }
        let lent = Buffers {
            words: words.iter().map(Lent::content).collect(),
            bytes: bytes.content(),
        };
        if part > 0 && lent != answered.lent {
            return Err(format!(
                "number {part}: the lent buffers hold something else"
            ));
        }
        answered.lent = lent;
    }
    Ok(answered)
}

fn proved_part(call: &Call, mut words: Vec<&mut [u32]>, bytes: &mut [u8], part: usize) -> usize {
    let Held { header, table } = call.held;
    let (input, budget, fault) = (call.input, call.budget, call.fault);
    match (call.entry, &mut words[..]) {
        (Entry::Read, [table]) => linked::read(call.bytes, table, part),
        (Entry::Write, []) => linked::write(header, table, bytes, part),
        (Entry::CheckRunnable, []) => linked::check_runnable(header, table, part),
        (Entry::CheckSource, []) => linked::check_source(header, table, part),
        (Entry::Harden, [output]) => linked::harden(header, table, output, part),
        (Entry::Run, [events]) => linked::run(header, table, input, events, budget, fault, part),
        (Entry::Campaign, [first, second]) => {
            linked::campaign(header, table, input, first, second, budget, part)
        }
        _ => unreachable!("a call lends what its entry point takes"),
    }
}

/// The second program's side.
pub fn second(call: &Call) -> Answered {
    let mut lent = call.lent.clone();
    let (graph, table) = (&graph(&call.held.header), &call.held.table);
    let (input, budget, fault) = (call.input, word(call.budget), call.fault.map(word));
    let mut numbers = match (call.entry, &mut lent.words[..]) {
        (Entry::Read, [table]) => graph_numbers(second::file::read(call.bytes, table)),
        (Entry::Write, []) => size_numbers(second::file::write(graph, table, &mut lent.bytes)),
        (Entry::CheckRunnable, []) => check_numbers(second::table::check_runnable(graph, table)),
        (Entry::CheckSource, []) => check_numbers(second::table::check_source(graph, table)),
        (Entry::Harden, [output]) => graph_numbers(second::harden::harden(graph, table, output)),
        (Entry::Run, [events]) => {
            run_numbers(second::run::run(graph, table, input, events, budget, fault))
        }
        (Entry::Campaign, [first, second]) => score_numbers(second::campaign::campaign(
            graph, table, input, first, second, budget,
        )),
        _ => unreachable!("a call lends what its entry point takes"),
    };
    numbers.resize(call.entry.numbers(), 0);
    Answered { numbers, lent }
}

/// The second program counts in words. The last word is out of every range that R, N, an entry and
/// a budget have, and no run reaches a place so far, so it stands for every larger number.
fn word(number: usize) -> u32 {
    u32::try_from(number).unwrap_or(u32::MAX)
}

pub fn graph(header: &Header) -> Graph {
    Graph {
        registers: word(header.registers),
        nodes: word(header.nodes),
        entry: word(header.entry),
    }
}

/// The refusal's number and place, or 0, 0 and what an accepted call answers.
fn numbers<T>(answer: Result<T, Refusal>, rest: impl Fn(T) -> Vec<u32>) -> Vec<usize> {
    let words = match answer {
        Ok(given) => [vec![0, 0], rest(given)].concat(),
        Err(refusal) => vec![refusal.number, refusal.place],
    };
    words.into_iter().map(|word| word as usize).collect()
}

fn check_numbers(answer: Result<(), Refusal>) -> Vec<usize> {
    numbers(answer, |()| Vec::new())
}

fn size_numbers(answer: Result<usize, Refusal>) -> Vec<usize> {
    numbers(answer, |size| vec![size as u32])
}

fn graph_numbers(answer: Result<Graph, Refusal>) -> Vec<usize> {
    numbers(answer, |g| vec![g.registers, g.nodes, g.entry])
}

fn score_numbers(answer: Result<Score, Refusal>) -> Vec<usize> {
    numbers(answer, |s| {
        let caught = [s.positions, s.caught, s.late];
        let others = [s.harmless, s.changed, s.unended];
        [caught, others].concat()
    })
}

fn run_numbers(answer: Result<Answer, Refusal>) -> Vec<usize> {
    numbers(answer, |a| {
        let (outcome, value) = match a.outcome {
            Outcome::Returned(value) => (1, value),
            Outcome::Caught => (2, 0),
            Outcome::Spent => (3, 0),
            Outcome::Full => (4, 0),
        };
        let ended = [outcome, value, a.node];
        let counts = [a.steps, a.branches, a.reads, a.events];
        [&ended[..], &counts, &a.registers].concat()
    })
}
