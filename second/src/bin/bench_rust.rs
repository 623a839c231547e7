//! Times the fast run and campaigns: the yardstick for the proved ones.
#![forbid(unsafe_code)]

use second::arguments::{score_arguments, Arguments, Mode};
use second::fast::{campaign_forked, campaign_rerun, run_fast};
use second::programs::{read, read_hardened, refused, score_line, Held, FILE_BYTES};
use second::refusal::Refusal;
use std::env;
use std::hint::black_box;
use std::io::{self, Read};
use std::process::ExitCode;
use std::time::Instant;

const USAGE: &str = "expected WHAT REPEAT MODE BUDGET ROOM [WORD ..] < FILE, WHAT being run, forked or rerun, REPEAT at least 1";

fn main() -> ExitCode {
    let words: Vec<String> = env::args().skip(1).collect();
    match bench(&words) {
        Ok(()) => ExitCode::SUCCESS,
        Err(message) => {
            eprintln!("{}", message.trim_end());
            ExitCode::from(2)
        }
    }
}

fn bench(words: &[String]) -> Result<(), String> {
    let [what, repeat, rest @ ..] = words else {
        return Err(USAGE.to_string());
    };
    let repeat: u32 = repeat.parse().map_err(|_| USAGE.to_string())?;
    if repeat == 0 {
        return Err(USAGE.to_string());
    }
    let arguments = score_arguments(rest)?;
    let mut file = Vec::new();
    let input = io::stdin().take(FILE_BYTES as u64).read_to_end(&mut file);
    input.map_err(|error| format!("standard input: {error}"))?;
    let held = match arguments.mode {
        Mode::Plain => read(&file),
        Mode::Hardened => read_hardened(&file),
    };
    let work = Work::new(held.map_err(refused)?, arguments);
    let job = match what.as_str() {
        "run" => Work::run,
        "forked" => Work::forked,
        "rerun" => Work::rerun,
        _ => return Err(USAGE.to_string()),
    };
    work.time(repeat, job).map_err(refused)
}

/// A graph, its arguments and the two lent buffers.
struct Work {
    held: Held,
    arguments: Arguments,
    first: Vec<u32>,
    second: Vec<u32>,
}

type Job = fn(&mut Work) -> Result<String, Refusal>;

impl Work {
    fn new(held: Held, arguments: Arguments) -> Self {
        let room = arguments.room as usize;
        Work {
            held,
            arguments,
            first: vec![0; room],
            second: vec![0; room],
        }
    }

    /// Prints the mean and the least nanoseconds of a job, and what it answers.
    fn time(mut self, repeat: u32, job: Job) -> Result<(), Refusal> {
        let answer = job(&mut self)?;
        let (mut all, mut least) = (0, u128::MAX);
        for _ in 0..repeat {
            let began = Instant::now();
            black_box(job(black_box(&mut self))?);
            let taken = began.elapsed().as_nanos();
            all += taken;
            least = least.min(taken);
        }
        let mean = all / u128::from(repeat);
        let answer = answer.trim_end();
        println!("{mean} nanoseconds per run, least {least}, {repeat} runs: {answer}");
        Ok(())
    }

    fn run(&mut self) -> Result<String, Refusal> {
        let (graph, table) = &self.held;
        let (input, budget) = (&self.arguments.input, self.arguments.budget);
        let answer = run_fast(graph, table, input, &mut self.first, budget, None)?;
        Ok(format!("{:?} after {} steps", answer.outcome, answer.steps))
    }

    fn forked(&mut self) -> Result<String, Refusal> {
        let (graph, table) = &self.held;
        let (input, budget) = (&self.arguments.input, self.arguments.budget);
        let (first, second) = (&mut self.first, &mut self.second);
        campaign_forked(graph, table, input, first, second, budget).map(|score| score_line(&score))
    }

    fn rerun(&mut self) -> Result<String, Refusal> {
        let (graph, table) = &self.held;
        let (input, budget) = (&self.arguments.input, self.arguments.budget);
        let (first, second) = (&mut self.first, &mut self.second);
        campaign_rerun(graph, table, input, first, second, budget).map(|score| score_line(&score))
    }
}
