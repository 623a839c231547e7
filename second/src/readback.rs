//! The hardened file read back: run and scored plain, what `hfile` put out
//! must answer as its source does hardened. Both answers are those of the
//! given programs.

use crate::compare::Trial;
use crate::generate::{Case, Line};
use crate::observe::Said;
use crate::programs::read_hardened;
use crate::report::{difference, spoken};

/// What a program said of the case's file.
#[derive(Clone)]
pub struct Heard {
    pub program: &'static str,
    pub line: Line,
    pub said: Said,
}

impl Heard {
    fn is_hardened_file(&self) -> bool {
        self.program == "hfile" && self.line.is_empty()
    }

    /// Whether a program answered, in a mode.
    fn answers(&self, program: &str, mode: &str) -> bool {
        self.program == program
            && self.line.first().is_some_and(|word| word == mode)
            && self.said == Said::answer(&self.said.output)
    }
}

/// Reads the file back if the case's own is an accepted source.
pub fn try_on(trial: &mut Trial) {
    let hardened = trial.heard.iter().find(|one| one.is_hardened_file());
    let Some(file) = hardened.map(|one| one.said.output.clone()) else {
        return;
    };
    for &program in programs(trial.case) {
        read_back(trial, program, &file);
    }
}

/// The programs that read a case's hardened file.
pub fn programs(case: &Case) -> &'static [&'static str] {
    match read_hardened(&case.file) {
        Ok(_) => &["hrun", "hscore"],
        Err(_) => &[],
    }
}

fn read_back(trial: &mut Trial, program: &'static str, file: &[u8]) {
    let Some(source) = source_answer(trial, program) else {
        return;
    };
    let line = in_mode("plain", &source.line);
    let Some(said) = trial.start_on(program, &line, file) else {
        return;
    };
    match program {
        "hrun" => trial.tally.runs_back += 1,
        _ => trial.tally.scores_back += 1,
    }
    trial.tally.mix.read_back(program, &source.said.output);
    if said != source.said {
        let message = format!(
            "read back: expected what `{program} {}` says of the source\n{}",
            spoken(&source.line),
            difference(&said, &source.said)
        );
        trial.fail(&format!("hfile | {program}"), &line, &message);
    }
}

/// What a program said of the source hardened. If it was not asked yet, it is
/// asked by a plain command line with the mode changed.
fn source_answer(trial: &mut Trial, program: &'static str) -> Option<Heard> {
    if chosen(program, &trial.heard).is_none() {
        let plain = |one: &&Heard| one.answers(program, "plain");
        let line = in_mode("hardened", &trial.heard.iter().find(plain)?.line);
        trial.ask(program, &line);
    }
    chosen(program, &trial.heard).cloned()
}

/// The hardened answer that a file is held against; a refusal shows the least.
pub fn chosen<'a>(program: &str, heard: &'a [Heard]) -> Option<&'a Heard> {
    let hardened = || {
        let all = heard.iter();
        all.filter(|one| one.answers(program, "hardened"))
    };
    let shows_more = |one: &&Heard| !one.said.output.starts_with(b"refused");
    hardened().find(shows_more).or_else(|| hardened().next())
}

fn in_mode(mode: &str, line: &Line) -> Line {
    let mut line = line.clone();
    line[0] = mode.to_string();
    line
}

#[cfg(test)]
mod tests {
    use super::*;

    fn heard(program: &'static str, line: &str, said: Said) -> Heard {
        let line = line.split_whitespace().map(String::from).collect();
        Heard {
            program,
            line,
            said,
        }
    }

    #[test]
    fn a_hardened_answer_is_chosen() {
        let said = |text: &str| Said::answer(text.as_bytes());
        let mut all = vec![
            heard("hfile", "", said("file")),
            heard("hrun", "", Said::complaint("argument 1")),
            heard("hrun", "hardened x", Said::complaint("argument 2")),
            heard("hrun", "plain 9 9 none", said("caught")),
            heard("hscore", "hardened 9 9", said("1 1 0 0 0 0")),
        ];
        assert!(chosen("hrun", &all).is_none());
        all.push(heard("hrun", "hardened 0 9 none", said("refused 12 0")));
        assert_eq!(chosen("hrun", &all).unwrap().line[1], "0");
        all.push(heard("hrun", "hardened 1 9 none", said("spent")));
        all.push(heard("hrun", "hardened 2 9 none", said("spent")));
        assert_eq!(chosen("hrun", &all).unwrap().line[1], "1");
    }
}
