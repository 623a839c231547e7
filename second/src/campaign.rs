//! "Running and scoring", a campaign: the undisturbed run, then one run from
//! the start for each branch it executed.

use crate::graph::Graph;
use crate::refusal::{refuse, Refusal};
use crate::run::{run, Answer, Outcome, LAST_BUDGET};
use crate::table::check_runnable;

/// The number of positions and the five counts.
#[derive(Clone, Copy, Debug, Default, PartialEq, Eq)]
pub struct Score {
    pub positions: u32,
    pub caught: u32,
    pub late: u32,
    pub harmless: u32,
    pub changed: u32,
    pub unended: u32,
}

/// One disturbed run beside the reference, each with its event words.
pub struct Disturbed<'a> {
    pub reference: &'a Answer,
    pub expected: &'a [u32],
    pub answer: &'a Answer,
    pub events: &'a [u32],
}

/// Scores a graph; the first buffer keeps the reference events, the second
/// is all zero afterwards, and a refusal changes neither.
pub fn campaign(
    graph: &Graph,
    table: &[u32],
    input: &[u32],
    first: &mut [u32],
    second: &mut [u32],
    budget: u32,
) -> Result<Score, Refusal> {
    watched_campaign(graph, table, input, [first, second], budget, &mut |_| ())
}

/// The same, with each disturbed run shown to a watcher.
pub fn watched_campaign(
    graph: &Graph,
    table: &[u32],
    input: &[u32],
    [first, second]: [&mut [u32]; 2],
    budget: u32,
    watch: &mut dyn FnMut(&Disturbed),
) -> Result<Score, Refusal> {
    check_runnable(graph, table)?;
    if budget > LAST_BUDGET {
        return refuse(12, 0);
    }
    if first.len() != second.len() {
        return refuse(14, 0);
    }
    let mut trial = vec![0; first.len()];
    let reference = run(graph, table, input, &mut trial, budget, None)?;
    if !matches!(reference.outcome, Outcome::Returned(_)) {
        return refuse(13, 0);
    }
    let words = 2 * reference.events as usize;
    first[..words].copy_from_slice(&trial[..words]);
    let mut score = Score::default();
    for place in 0..reference.branches {
        let answer = run(graph, table, input, second, budget, Some(place))?;
        let disturbed = Disturbed {
            reference: &reference,
            expected: &first[..words],
            answer: &answer,
            events: &second[..2 * answer.events as usize],
        };
        score.count(&disturbed);
        watch(&disturbed);
    }
    second.fill(0);
    Ok(score)
}

impl Score {
    /// Puts one disturbed run into its class.
    fn count(&mut self, run: &Disturbed) {
        self.positions += 1;
        let outcome = run.answer.outcome;
        let class = match outcome {
            Outcome::Caught if run.expected.starts_with(run.events) => &mut self.caught,
            Outcome::Caught => &mut self.late,
            Outcome::Returned(_)
                if outcome == run.reference.outcome && run.events == run.expected =>
            {
                &mut self.harmless
            }
            Outcome::Returned(_) | Outcome::Full => &mut self.changed,
            Outcome::Spent => &mut self.unended,
        };
        *class += 1;
    }
}
