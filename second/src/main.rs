//! The command line of the second program.
#![forbid(unsafe_code)]

use second::compare::{self, compare, show_case};
use second::examples;
use second::options::Options;
use second::programs::{hfile, hlist, hrun, hscore, read, refused, FILE_BYTES};
use second::text::{assemble, show};
use std::env;
use std::io::{self, Read, Write};
use std::path::PathBuf;
use std::process::ExitCode;

const USAGE: &str = "expected one of:
  hlist < FILE
  hfile [plain] < FILE > FILE
  hrun MODE BUDGET ROOM FAULT [WORD ..] < FILE
  hscore MODE BUDGET ROOM [WORD ..] < FILE
  assemble < TEXT > FILE
  show < FILE
  compare --hlist PATH --hfile PATH --hrun PATH --hscore PATH --cases N --seed S [--seconds T] [--jobs J]
  case --seed S --index I [--hlist PATH --hfile PATH --hrun PATH --hscore PATH]
  examples [--hscore PATH] [--directory PATH]";

fn main() -> ExitCode {
    let words: Vec<String> = env::args_os()
        .skip(1)
        .map(|word| word.to_string_lossy().into_owned())
        .collect();
    let (command, rest) = match words.split_first() {
        Some((command, rest)) => (command.as_str(), rest),
        None => ("", &words[..]),
    };
    match dispatch(command, rest) {
        Ok(true) => ExitCode::SUCCESS,
        Ok(false) => ExitCode::from(1),
        Err(message) => {
            eprintln!("{message}");
            ExitCode::from(2)
        }
    }
}

/// False when something differed, an error when a command was used wrongly.
fn dispatch(command: &str, rest: &[String]) -> Result<bool, String> {
    match command {
        "hlist" => print(hlist(&graph_file()?).as_bytes()),
        "hfile" => say(hfile(rest, &graph_file()?)),
        "hrun" => say(hrun(rest, &graph_file()?)),
        "hscore" => say(hscore(rest, &graph_file()?)),
        "assemble" => print(&assemble(&whole_text()?)?),
        "show" => show_file(),
        "compare" => compare_programs(rest),
        "case" => one_case(rest),
        "examples" => check_examples(rest),
        "--help" => print(format!("{USAGE}\n").as_bytes()),
        _ => Err(USAGE.to_string()),
    }
}

/// An answer, or a line on standard error; the exit status is 0 in both cases.
fn say(answer: Result<impl AsRef<[u8]>, String>) -> Result<bool, String> {
    match answer {
        Ok(answer) => print(answer.as_ref()),
        Err(line) => {
            eprintln!("{line}");
            Ok(true)
        }
    }
}

fn show_file() -> Result<bool, String> {
    match read(&graph_file()?) {
        Ok((graph, table)) => print(show(&graph, &table).as_bytes()),
        Err(refusal) => Err(refused(refusal).trim_end().to_string()),
    }
}

fn compare_programs(rest: &[String]) -> Result<bool, String> {
    let known = [
        "hlist", "hfile", "hrun", "hscore", "cases", "seed", "seconds", "jobs",
    ];
    let options = Options::parse(rest, &known)?;
    let cases = options.required_number("cases")?;
    if cases == 0 {
        return Err("--cases: expected at least 1".to_string());
    }
    Ok(compare(&compare::Options {
        programs: options.programs()?,
        cases,
        seed: options.required_number("seed")?,
        seconds: options.number("seconds")?,
        jobs: options.number("jobs")?.unwrap_or(2).max(1) as usize,
    }))
}

fn one_case(rest: &[String]) -> Result<bool, String> {
    let paths = ["hlist", "hfile", "hrun", "hscore"];
    let options = Options::parse(rest, &[&paths[..], &["seed", "index"]].concat())?;
    let compared = paths.iter().any(|name| options.path(name).is_some());
    let programs = compared.then(|| options.programs()).transpose()?;
    let seed = options.required_number("seed")?;
    let index = options.required_number("index")?;
    Ok(show_case(seed, index, programs.as_ref()))
}

fn check_examples(rest: &[String]) -> Result<bool, String> {
    let options = Options::parse(rest, &["hscore", "directory"])?;
    let directory = options.path("directory");
    let directory = directory.unwrap_or(PathBuf::from("examples"));
    examples::check(&directory, options.path("hscore").as_deref())
}

/// The first bytes of standard input, which decide about any longer file.
fn graph_file() -> Result<Vec<u8>, String> {
    let mut bytes = Vec::new();
    io::stdin()
        .take(FILE_BYTES as u64)
        .read_to_end(&mut bytes)
        .map_err(|error| format!("standard input: {error}"))?;
    Ok(bytes)
}

fn whole_text() -> Result<String, String> {
    io::read_to_string(io::stdin()).map_err(|error| format!("standard input: {error}"))
}

fn print(bytes: &[u8]) -> Result<bool, String> {
    let mut output = io::stdout().lock();
    output
        .write_all(bytes)
        .and_then(|()| output.flush())
        .map_err(|error| format!("standard output: {error}"))?;
    Ok(true)
}
