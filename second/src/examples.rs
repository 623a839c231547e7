//! The examples held against their table of scores, each through a given
//! program and through the second one, and each file against its readable form.

use crate::observe::{Said, Starter};
use crate::programs::hscore;
use crate::report::difference;
use crate::text::assemble;
use std::collections::BTreeSet;
use std::fs;
use std::path::Path;

/// One line of `scores.expected`: the graph and input names, the mode,
/// budget and room, and the line that `hscore` prints.
struct Row {
    graph: String,
    input: String,
    line: Vec<String>,
    score: String,
}

/// Checks all examples of a directory; true when every check passed.
pub fn check(directory: &Path, program: Option<&Path>) -> Result<bool, String> {
    let table = text(&directory.join("scores.expected"))?;
    let rows = rows(&table)?;
    let mut checks = Checks::default();
    let graphs: BTreeSet<&str> = rows.iter().map(|row| row.graph.as_str()).collect();
    for graph in graphs {
        let made = assemble(&text(&directory.join(format!("{graph}.graph")))?)?;
        let kept = bytes(&directory.join(format!("{graph}.bin")))?;
        checks.say(
            made == kept,
            &format!("{graph}.bin is what {graph}.graph makes"),
        );
    }
    let starter = Starter::new();
    for row in &rows {
        let file = bytes(&directory.join(format!("{}.bin", row.graph)))?;
        let mut line = row.line.clone();
        let input = text(&directory.join(format!("{}.input", row.input)))?;
        line.extend(input.split_whitespace().map(String::from));
        let name = format!("{} {} {}", row.input, row.line.join(" "), row.score);
        let own = hscore(&line, &file)?;
        checks.say(own.trim_end() == row.score, &format!("second: {name}"));
        if let Some(program) = program {
            let said = starter.start(program, &line, &file);
            let said = said.map_err(|error| format!("{}: {error}", program.display()))?;
            let expected = Said::answer(format!("{}\n", row.score).as_bytes());
            checks.say(said == expected, &format!("hscore: {name}"));
            print!("{}", difference(&said, &expected));
        }
    }
    println!("{} passed, {} failed", checks.passed, checks.failed);
    Ok(checks.failed == 0 && checks.passed > 0)
}

#[derive(Default)]
struct Checks {
    passed: u32,
    failed: u32,
}

impl Checks {
    fn say(&mut self, kept: bool, what: &str) {
        println!("{} {what}", if kept { "PASS" } else { "FAIL" });
        self.passed += u32::from(kept);
        self.failed += u32::from(!kept);
    }
}

fn rows(table: &str) -> Result<Vec<Row>, String> {
    let lines = table
        .lines()
        .filter(|line| !line.starts_with('#') && !line.is_empty());
    lines
        .map(|line| {
            let words: Vec<&str> = line.split_whitespace().collect();
            if words.len() != 11 {
                return Err(format!("expected eleven words, found `{line}`"));
            }
            Ok(Row {
                graph: words[0].to_string(),
                input: words[1].to_string(),
                line: words[2..5].iter().map(|word| word.to_string()).collect(),
                score: words[5..].join(" "),
            })
        })
        .collect()
}

fn text(path: &Path) -> Result<String, String> {
    fs::read_to_string(path).map_err(|error| format!("{}: {error}", path.display()))
}

fn bytes(path: &Path) -> Result<Vec<u8>, String> {
    fs::read(path).map_err(|error| format!("{}: {error}", path.display()))
}
