//! "One listing, whole" and its companions: what `hlist`, `hfile`, `hrun` and
//! `hscore` print for a graph file.

use crate::arguments::{file_arguments, run_arguments, score_arguments, Arguments, Mode};
use crate::campaign::{watched_campaign, Disturbed, Score};
use crate::file;
use crate::graph::{row, Graph};
use crate::harden::harden;
use crate::refusal::Refusal;
use crate::run::{run, Answer, Outcome};
use std::fmt::Write;

pub const FILE_BYTES: usize = 32_768;
pub const TABLE_WORDS: usize = 12_300;

/// A graph with the table that holds it.
pub type Held = (Graph, Vec<u32>);

/// Reads a file into a table of its own; longer files are decided by their
/// first bytes.
pub fn read(bytes: &[u8]) -> Result<Held, Refusal> {
    let mut table = vec![0; TABLE_WORDS];
    let graph = file::read(&bytes[..bytes.len().min(FILE_BYTES)], &mut table)?;
    Ok((graph, table))
}

/// Reads a file and hardens it into another table as long.
pub fn read_hardened(bytes: &[u8]) -> Result<Held, Refusal> {
    let (graph, table) = read(bytes)?;
    let mut output = vec![0; TABLE_WORDS];
    let hardened = harden(&graph, &table, &mut output)?;
    Ok((hardened, output))
}

fn load(mode: Mode, bytes: &[u8]) -> Result<Held, Refusal> {
    match mode {
        Mode::Plain => read(bytes),
        Mode::Hardened => read_hardened(bytes),
    }
}

pub fn hlist(bytes: &[u8]) -> String {
    read_hardened(bytes).map_or_else(refused, |(graph, table)| listing(&graph, &table))
}

/// The file of the hardened graph, or of the graph as read. Its output is a
/// file or nothing, so a refusal is told as a bad argument is.
pub fn hfile(words: &[String], bytes: &[u8]) -> Result<Vec<u8>, String> {
    let mode = file_arguments(words)?;
    write_file(mode, bytes).map_err(|refusal| refused(refusal).trim_end().to_string())
}

/// The outer error is a bad argument; a refusal is an ordinary answer.
pub fn hrun(words: &[String], bytes: &[u8]) -> Result<String, String> {
    let arguments = run_arguments(words)?;
    Ok(run_file(&arguments, bytes).unwrap_or_else(refused))
}

pub fn hscore(words: &[String], bytes: &[u8]) -> Result<String, String> {
    hscore_watched(words, bytes, &mut |_| ())
}

/// The same, with each disturbed run shown to a watcher.
pub fn hscore_watched(
    words: &[String],
    bytes: &[u8],
    watch: &mut dyn FnMut(&Disturbed),
) -> Result<String, String> {
    let arguments = score_arguments(words)?;
    Ok(score_file(&arguments, bytes, watch).unwrap_or_else(refused))
}

fn write_file(mode: Mode, bytes: &[u8]) -> Result<Vec<u8>, Refusal> {
    let (graph, table) = load(mode, bytes)?;
    let mut file = vec![0; file::LONGEST];
    let length = file::write(&graph, &table, &mut file)?;
    file.truncate(length);
    Ok(file)
}

fn run_file(arguments: &Arguments, bytes: &[u8]) -> Result<String, Refusal> {
    let (graph, table) = load(arguments.mode, bytes)?;
    let mut buffer = vec![0; arguments.room as usize];
    let answer = run(
        &graph,
        &table,
        &arguments.input,
        &mut buffer,
        arguments.budget,
        arguments.fault,
    )?;
    Ok(run_lines(&answer, &buffer))
}

fn score_file(
    arguments: &Arguments,
    bytes: &[u8],
    watch: &mut dyn FnMut(&Disturbed),
) -> Result<String, Refusal> {
    let (graph, table) = load(arguments.mode, bytes)?;
    let mut first = vec![0; arguments.room as usize];
    let mut second = first.clone();
    let score = watched_campaign(
        &graph,
        &table,
        &arguments.input,
        [&mut first, &mut second],
        arguments.budget,
        watch,
    )?;
    Ok(score_line(&score))
}

pub fn refused(refusal: Refusal) -> String {
    format!("refused {} {}\n", refusal.number, refusal.place)
}

pub fn listing(graph: &Graph, table: &[u32]) -> String {
    let mut text = format!("{} {} {}\n", graph.registers, graph.nodes, graph.entry);
    for node in 0..graph.nodes {
        text += &node.to_string();
        put_words(&mut text, &row(table, node));
        text.push('\n');
    }
    text
}

fn run_lines(answer: &Answer, buffer: &[u32]) -> String {
    let mut text = match answer.outcome {
        Outcome::Returned(value) => format!("returned {value}\n"),
        Outcome::Caught => "caught\n".to_string(),
        Outcome::Spent => "spent\n".to_string(),
        Outcome::Full => "full\n".to_string(),
    };
    let (node, steps) = (answer.node, answer.steps);
    let (branches, reads) = (answer.branches, answer.reads);
    text += &format!("node {node}\nsteps {steps}\nbranches {branches}\nreads {reads}\nevents");
    put_words(&mut text, &buffer[..2 * answer.events as usize]);
    text += "\nregisters";
    put_words(&mut text, &answer.registers);
    text.push('\n');
    text
}

pub fn score_line(score: &Score) -> String {
    format!(
        "{} {} {} {} {} {}\n",
        score.positions, score.caught, score.late, score.harmless, score.changed, score.unended
    )
}

fn put_words(text: &mut String, words: &[u32]) {
    for word in words {
        write!(text, " {word}").expect("a string takes every word");
    }
}
