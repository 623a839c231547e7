//! The comparison: every answer of the given programs held against the second
//! program's, byte for byte; on the same graphs demand 3 is tried, and hardened
//! files are read back.

use crate::arguments::{file_arguments, Mode};
use crate::demand3;
use crate::generate::{case, Case, Line};
use crate::mix::{Marks, Mix};
use crate::observe::{End, Programs, Said, Starter};
use crate::programs::{hfile, hlist, hrun, hscore, hscore_watched};
use crate::readback::{self, Heard};
use crate::report::{difference, hex, spoken};
use std::sync::atomic::{AtomicU64, Ordering};
use std::sync::Mutex;
use std::thread;
use std::time::{Duration, Instant};

/// Reports beyond this many are counted and not printed.
const REPORTS: u64 = 20;

pub struct Options {
    pub programs: Programs,
    pub cases: u64,
    pub seed: u64,
    pub seconds: Option<u64>,
    pub jobs: usize,
}

/// How many answers of each sort were compared, and how many differed.
#[derive(Default)]
pub struct Tally {
    pub graphs: u64,
    pub listings: u64,
    pub files: u64,
    /// Sources and files of which `hfile` put out none.
    pub refused_files: u64,
    pub runs: u64,
    pub scores: u64,
    pub bad_arguments: u64,
    pub runs_back: u64,
    pub scores_back: u64,
    pub follows: u64,
    pub inversions: u64,
    pub hardened_scores: u64,
    /// Programs that did not start, or did not answer as any program must.
    pub broken: u64,
    pub wanted: u64,
    pub failed: u64,
    pub hung: bool,
    pub mix: Mix,
}

impl Tally {
    fn compared(&self) -> u64 {
        self.listings
            + self.files
            + self.refused_files
            + self.runs
            + self.scores
            + self.bad_arguments
            + self.runs_back
            + self.scores_back
            + self.tried()
            + self.broken
            + self.wanted
    }

    /// The checks of demand 3.
    fn tried(&self) -> u64 {
        self.follows + self.inversions + self.hardened_scores
    }

    fn join(&mut self, other: &Tally) {
        self.graphs += other.graphs;
        self.listings += other.listings;
        self.files += other.files;
        self.refused_files += other.refused_files;
        self.runs += other.runs;
        self.scores += other.scores;
        self.bad_arguments += other.bad_arguments;
        self.runs_back += other.runs_back;
        self.scores_back += other.scores_back;
        self.follows += other.follows;
        self.inversions += other.inversions;
        self.hardened_scores += other.hardened_scores;
        self.broken += other.broken;
        self.wanted += other.wanted;
        self.failed += other.failed;
        self.hung |= other.hung;
        self.mix.join(&other.mix);
    }

    fn print(&self, seconds: f64) {
        println!("the mix of answers:");
        self.mix.print();
        println!(
            "{} graphs in {seconds:.1} s, {:.0} graphs and {:.0} checks a second",
            self.graphs,
            self.graphs as f64 / seconds,
            self.compared() as f64 / seconds
        );
        println!(
            "counted: {} listings, {} files, {} refused files, {} runs, {} scores and \
             {} bad command lines compared; {} runs and {} scores of hardened files read back; \
             for demand 3: {} runs followed, {} inversions, {} hardened scores; \
             {} sorts that must not be lacking",
            self.listings,
            self.files,
            self.refused_files,
            self.runs,
            self.scores,
            self.bad_arguments,
            self.runs_back,
            self.scores_back,
            self.follows,
            self.inversions,
            self.hardened_scores,
            self.wanted
        );
        println!(
            "{} passed, {} failed",
            self.compared() - self.failed,
            self.failed
        );
    }
}

/// One case under comparison.
pub struct Trial<'a> {
    pub case: &'a Case,
    pub programs: &'a Programs,
    pub starter: &'a Starter,
    pub tally: Tally,
    pub heard: Vec<Heard>,
    pub reports: Vec<String>,
}

impl<'a> Trial<'a> {
    pub fn new(case: &'a Case, programs: &'a Programs, starter: &'a Starter) -> Self {
        Trial {
            case,
            programs,
            starter,
            tally: Tally::default(),
            heard: Vec::new(),
            reports: Vec::new(),
        }
    }

    /// Compares every answer to the case, then tries demand 3 on it and reads
    /// its hardened file back.
    pub fn make(&mut self) {
        let case = self.case;
        self.tally.graphs = 1;
        self.tally.mix.graph(&case.file);
        for (program, line) in case.lines() {
            self.ask(program, line);
        }
        demand3::try_on(self);
        readback::try_on(self);
    }

    /// Compares one answer.
    pub fn ask(&mut self, program: &'static str, line: &Line) {
        let expected = expected(self.case, program, line, &mut self.tally.mix);
        let Some(said) = self.start(program, line) else {
            return;
        };
        match program {
            _ if expected.errors.starts_with(b"argument") => self.tally.bad_arguments += 1,
            "hlist" => self.tally.listings += 1,
            "hfile" if expected.errors.is_empty() => self.tally.files += 1,
            "hfile" => self.tally.refused_files += 1,
            "hrun" => self.tally.runs += 1,
            _ => self.tally.scores += 1,
        }
        if said != expected {
            self.fail(program, line, &difference(&said, &expected));
        }
    }

    /// What a program prints; one that says more than its output, or does not
    /// end as it must, fails the case.
    pub fn output(&mut self, program: &'static str, line: &Line) -> Option<String> {
        let said = self.start(program, line)?;
        let expected = Said::answer(&said.output);
        if said != expected {
            self.tally.broken += 1;
            self.fail(program, line, &difference(&said, &expected));
            return None;
        }
        Some(String::from_utf8_lossy(&said.output).into_owned())
    }

    /// Starts a program on the case's file, and keeps what it says.
    fn start(&mut self, program: &'static str, line: &Line) -> Option<Said> {
        let case = self.case;
        let said = self.start_on(program, line, &case.file)?;
        self.heard.push(Heard {
            program,
            line: line.clone(),
            said: said.clone(),
        });
        Some(said)
    }

    /// Starts a program; one that cannot be started fails the case, and
    /// after one that hung the case is left.
    pub fn start_on(&mut self, program: &str, line: &Line, file: &[u8]) -> Option<Said> {
        if self.tally.hung {
            return None;
        }
        let path = self.programs.path(program);
        match self.starter.start(path, line, file) {
            Ok(said) => {
                self.tally.hung = said.end == End::Hung;
                Some(said)
            }
            Err(error) => {
                let message = format!("{} does not start: {error}", path.display());
                self.tally.broken += 1;
                self.fail(program, line, &message);
                None
            }
        }
    }

    /// Records a difference with all that it takes to see it again.
    pub fn fail(&mut self, program: &str, line: &Line, message: &str) {
        self.tally.failed += 1;
        let (seed, index) = (self.case.seed, self.case.index);
        let hex = hex(&self.case.file);
        let again = format!(
            "second case --seed {seed} --index {index} --hlist {} --hfile {} --hrun {} --hscore {}",
            self.programs.hlist.display(),
            self.programs.hfile.display(),
            self.programs.hrun.display(),
            self.programs.hscore.display()
        );
        self.reports.push(format!(
            "DIFFERENCE seed {seed} index {index}\n  file: {hex}\n  command: {program} {}\n  {}\n  again: {again}",
            spoken(line),
            message.trim_end().replace('\n', "\n  ")
        ));
    }
}

/// What the second program says, taken up in the mix.
fn expected(case: &Case, program: &str, line: &Line, mix: &mut Mix) -> Said {
    mix.line(program, line);
    let mut marks = Marks::default();
    let answer = match program {
        "hlist" => Ok(hlist(&case.file)),
        "hfile" => return expected_file(case, line, mix),
        "hrun" => hrun(line, &case.file),
        _ => hscore_watched(line, &case.file, &mut |run| marks.see(run)),
    };
    mix.marks(&marks);
    match answer {
        Ok(text) => {
            mix.answer(program, &text);
            if program == "hrun" {
                mix.run(line, &case.file, &text);
            }
            Said::answer(text.as_bytes())
        }
        Err(complaint) => {
            mix.add(&format!("{program}: bad arguments"));
            Said::complaint(&complaint)
        }
    }
}

/// The file that `hfile` puts out. Of the graph as read it is the very file
/// that was read, whatever the second program writes.
fn expected_file(case: &Case, line: &Line, mix: &mut Mix) -> Said {
    let answer = hfile(line, &case.file);
    mix.file(line, &case.file, &answer);
    match answer {
        Ok(_) if file_arguments(line) == Ok(Mode::Plain) => Said::answer(&case.file),
        Ok(file) => Said::answer(&file),
        Err(complaint) => Said::complaint(&complaint),
    }
}

/// Runs the whole comparison; true when nothing differed.
pub fn compare(options: &Options) -> bool {
    println!("seed {}, {} cases", options.seed, options.cases);
    let began = Instant::now();
    let next = AtomicU64::new(0);
    let total = Mutex::new(Tally::default());
    thread::scope(|scope| {
        for _ in 0..options.jobs {
            scope.spawn(|| work(options, began, &next, &total));
        }
    });
    let mut total = total.into_inner().expect("no worker failed");
    if total.graphs < options.cases {
        let why = if total.hung {
            "a program that hung"
        } else {
            "the clock"
        };
        println!("stopped by {why} after {} cases", total.graphs);
    }
    let (wanted, lacking) = total.mix.lacking(total.graphs);
    total.wanted = wanted as u64;
    total.failed += lacking.len() as u64;
    for what in &lacking {
        println!("LACKING {what}");
    }
    total.print(began.elapsed().as_secs_f64());
    total.failed == 0 && total.graphs > 0
}

/// Takes cases one after another until they, or the seconds, run out.
fn work(options: &Options, began: Instant, next: &AtomicU64, total: &Mutex<Tally>) {
    let starter = Starter::new();
    let limit = options.seconds.map(Duration::from_secs);
    loop {
        let index = next.fetch_add(1, Ordering::Relaxed);
        let late = limit.is_some_and(|limit| began.elapsed() >= limit);
        let hung = total.lock().expect("no worker fails in here").hung;
        if index >= options.cases || late || hung {
            return;
        }
        let case = case(options.seed, index);
        let mut trial = Trial::new(&case, &options.programs, &starter);
        trial.make();
        let mut total = total.lock().expect("no worker fails in here");
        if total.failed < REPORTS {
            trial.reports.iter().for_each(|report| println!("{report}"));
        }
        total.join(&trial.tally);
    }
}

/// Shows one case whole, and compares it when programs are given.
pub fn show_case(seed: u64, index: u64, programs: Option<&Programs>) -> bool {
    let case = case(seed, index);
    println!("seed {seed} index {index}\nfile {}", hex(&case.file));
    for (program, line) in case.lines() {
        let answer = match program {
            "hlist" => Ok(hlist(&case.file)),
            "hfile" => hfile(line, &case.file).map(|file| hex(&file) + "\n"),
            "hrun" => hrun(line, &case.file),
            _ => hscore(line, &case.file),
        };
        print!("{program} {}\n{}", spoken(line), shown(answer));
    }
    let Some(programs) = programs else {
        return true;
    };
    let starter = Starter::new();
    let mut trial = Trial::new(&case, programs, &starter);
    let began = Instant::now();
    trial.make();
    trial.reports.iter().for_each(|report| println!("{report}"));
    trial.tally.print(began.elapsed().as_secs_f64());
    trial.tally.failed == 0
}

fn shown(answer: Result<String, String>) -> String {
    answer.unwrap_or_else(|line| format!("(standard error) {line}\n"))
}

#[cfg(test)]
mod tests {
    use super::*;

    /// The second program meets all that is wanted, whatever the seed.
    #[test]
    fn a_thousand_cases_lack_nothing() {
        for seed in [1, 20_261_116] {
            let mut mix = Mix::default();
            for index in 0..1_000 {
                let case = case(seed, index);
                mix.graph(&case.file);
                let mut heard = Vec::new();
                for (program, line) in case.lines() {
                    let said = expected(&case, program, line, &mut mix);
                    let line = line.clone();
                    heard.push(Heard {
                        program,
                        line,
                        said,
                    });
                }
                for program in readback::programs(&case) {
                    if let Some(one) = readback::chosen(program, &heard) {
                        mix.read_back(program, &one.said.output);
                    }
                }
            }
            assert_eq!(mix.lacking(1_000).1, Vec::<String>::new(), "seed {seed}");
        }
    }
}
