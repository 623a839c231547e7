//! A readable form of a graph, and the way there and back.
//!
//! One statement a line; `#` begins a comment; blank lines count for nothing.
//!
//! ```text
//! line      = [ LABEL ":" ] [ statement ]
//! statement = "registers" NAME ..        the registers in order, before all nodes
//!           | "entry" LABEL              where the graph begins; else its first node
//!           | "const" NAME WORD
//!           | "op" OPERATOR NAME NAME NAME           target, left, right
//!           | "if" NAME TEST ( NAME | WORD ) "goto" LABEL [ "else" LABEL ]
//!           | "in" NAME
//!           | "out" PORT NAME
//!           | "ret" NAME
//!           | "catch"
//!           | "goto" LABEL               no node: where the node above goes on
//! OPERATOR  = add | sub | and | or | xor | shl | shr
//! TEST      = == | != | < | >= | <s | >=s            the last two are signed
//! NAME, LABEL = a letter or "_", then letters, digits and "_"
//! WORD, PORT  = decimal, or hexadecimal after 0x
//! ```
//!
//! A node goes on to the node below it unless a `goto` says otherwise, and so
//! does an `if` without `else`. Without a `registers` line the registers are
//! numbered by first mention.

use crate::file;
use crate::graph::*;
use crate::programs::TABLE_WORDS;
use std::collections::HashMap;

const OPERATORS: [&str; 7] = ["add", "sub", "and", "or", "xor", "shl", "shr"];
const TESTS: [&str; 6] = ["==", "!=", "<", ">=", "<s", ">=s"];

/// What is wrong with a text, with its line.
pub type Error = String;

/// Makes the graph file from the readable form.
pub fn assemble(text: &str) -> Result<Vec<u8>, Error> {
    let mut assembly = Assembly::default();
    for (index, line) in text.lines().enumerate() {
        assembly
            .line(line)
            .map_err(|message| format!("line {}: {message}", index + 1))?;
        assembly.mark_line(index + 1);
    }
    let bytes = assembly.finish()?;
    let mut table = vec![0; TABLE_WORDS];
    match file::read(&bytes, &mut table) {
        Ok(_) => Ok(bytes),
        Err(refusal) => Err(format!(
            "the file made from this text is refused: {} at offset {}",
            refusal.number, refusal.place
        )),
    }
}

/// Where an edge goes: to a label, or to the node below.
#[derive(Clone)]
enum Target {
    Label(String),
    Below,
}

/// A node whose targets are not yet numbers; each stands with its word.
struct Draft {
    line: usize,
    row: Row,
    targets: Vec<(usize, Target)>,
}

#[derive(Default)]
struct Assembly {
    registers: Vec<String>,
    declared: bool,
    entry: Option<String>,
    labels: HashMap<String, usize>,
    drafts: Vec<Draft>,
}

type Words<'a> = std::str::SplitWhitespace<'a>;

impl Assembly {
    fn line(&mut self, line: &str) -> Result<(), Error> {
        let code = line.split('#').next().unwrap_or("");
        let (label, statement) = match code.split_once(':') {
            Some((label, rest)) => (Some(label), rest),
            None => (None, code),
        };
        if let Some(label) = label {
            self.label(label.trim())?;
        }
        let mut words = statement.split_whitespace();
        if let Some(first) = words.next() {
            self.statement(first, &mut words)?;
        }
        match words.next() {
            Some(extra) => Err(format!("expected the end of the line, found `{extra}`")),
            None => Ok(()),
        }
    }

    /// Drafts learn their line once it has been read.
    fn mark_line(&mut self, line: usize) {
        if let Some(draft) = self.drafts.last_mut().filter(|draft| draft.line == 0) {
            draft.line = line;
        }
    }

    fn label(&mut self, label: &str) -> Result<(), Error> {
        name(Some(label), "a label before `:`")?;
        match self.labels.insert(label.to_string(), self.drafts.len()) {
            Some(_) => Err(format!("expected a new label, `{label}` stands above")),
            None => Ok(()),
        }
    }

    fn statement(&mut self, first: &str, words: &mut Words) -> Result<(), Error> {
        match first {
            "registers" => self.declare(words),
            "entry" => {
                self.entry = Some(name(words.next(), "a label after `entry`")?);
                Ok(())
            }
            "goto" => self.goto(words),
            "const" => {
                let d = self.register(words)?;
                let k = word(words.next())?;
                self.push([CONST, d, k, 0, 0, 0], vec![(3, Target::Below)])
            }
            "op" => self.op(words),
            "if" => self.branch(words),
            "in" => {
                let d = self.register(words)?;
                self.push([IN, d, 0, 0, 0, 0], vec![(2, Target::Below)])
            }
            "out" => {
                let port = port(words.next())?;
                let a = self.register(words)?;
                self.push([OUT, port, a, 0, 0, 0], vec![(3, Target::Below)])
            }
            "ret" => {
                let a = self.register(words)?;
                self.push([RET, a, 0, 0, 0, 0], vec![])
            }
            "catch" => self.push([CATCH, 0, 0, 0, 0, 0], vec![]),
            other => Err(format!(
                "expected registers, entry, const, op, if, in, out, ret, catch or goto, found `{other}`"
            )),
        }
    }

    fn declare(&mut self, words: &mut Words) -> Result<(), Error> {
        if self.declared || !self.drafts.is_empty() {
            return Err("expected one `registers` line, before all nodes".to_string());
        }
        self.declared = true;
        for found in words {
            let name = name(Some(found), "a register name")?;
            if self.registers.contains(&name) {
                return Err(format!(
                    "expected a new register name, found `{name}` again"
                ));
            }
            self.registers.push(name);
        }
        Ok(())
    }

    /// Sends the node above elsewhere; a label on a `goto` would name no node.
    fn goto(&mut self, words: &mut Words) -> Result<(), Error> {
        let label = name(words.next(), "a label after `goto`")?;
        let here = self.drafts.len();
        if self.labels.values().any(|&node| node == here) {
            return Err("expected a node after the label, found `goto`".to_string());
        }
        let below = self
            .drafts
            .last_mut()
            .and_then(|draft| draft.targets.last_mut())
            .filter(|(_, target)| matches!(target, Target::Below));
        match below {
            Some((_, target)) => {
                *target = Target::Label(label);
                Ok(())
            }
            None => Err("expected a node above that goes on to the node below".to_string()),
        }
    }

    fn op(&mut self, words: &mut Words) -> Result<(), Error> {
        let o = one_of(&OPERATORS, words.next())?;
        let d = self.register(words)?;
        let a = self.register(words)?;
        let b = self.register(words)?;
        self.push([OP, o, d, a, b, 0], vec![(5, Target::Below)])
    }

    fn branch(&mut self, words: &mut Words) -> Result<(), Error> {
        let a = self.register(words)?;
        let c = one_of(&TESTS, words.next())?;
        let (kind, right) = self.operand(words)?;
        keyword("goto", words.next())?;
        let then = Target::Label(name(words.next(), "a label after `goto`")?);
        let other = match words.next() {
            None => Target::Below,
            found => {
                keyword("else", found)?;
                Target::Label(name(words.next(), "a label after `else`")?)
            }
        };
        self.push([kind, c, a, right, 0, 0], vec![(4, then), (5, other)])
    }

    /// A register makes kind 3, a word kind 4.
    fn operand(&mut self, words: &mut Words) -> Result<(u32, u32), Error> {
        let is_word = |found: &str| found.starts_with(|first: char| first.is_ascii_digit());
        match words.clone().next() {
            Some(found) if is_word(found) => Ok((BRANCH_WORD, word(words.next())?)),
            _ => Ok((BRANCH, self.register(words)?)),
        }
    }

    fn register(&mut self, words: &mut Words) -> Result<u32, Error> {
        let name = name(words.next(), "a register name")?;
        if let Some(index) = self.registers.iter().position(|known| *known == name) {
            return Ok(index as u32);
        }
        if self.declared {
            return Err(format!(
                "expected a register of the `registers` line, found `{name}`"
            ));
        }
        self.registers.push(name);
        Ok(self.registers.len() as u32 - 1)
    }

    fn push(&mut self, row: Row, targets: Vec<(usize, Target)>) -> Result<(), Error> {
        let line = 0;
        self.drafts.push(Draft { line, row, targets });
        Ok(())
    }

    fn finish(&self) -> Result<Vec<u8>, Error> {
        let mut table = Vec::new();
        for (node, draft) in self.drafts.iter().enumerate() {
            let mut row = draft.row;
            for (word, target) in &draft.targets {
                let found = self.resolve(node, target);
                row[*word] = found.map_err(|message| format!("line {}: {message}", draft.line))?;
            }
            table.extend(row);
        }
        let entry = match &self.entry {
            Some(label) => self.node_at(label)?,
            None => 0,
        };
        let graph = Graph {
            registers: self.registers.len() as u32,
            nodes: self.drafts.len() as u32,
            entry,
        };
        Ok(file::encode(&file::numbers(&graph, &table)))
    }

    fn resolve(&self, node: usize, target: &Target) -> Result<u32, Error> {
        match target {
            Target::Label(label) => self.node_at(label),
            Target::Below if node + 1 < self.drafts.len() => Ok(node as u32 + 1),
            Target::Below => Err("expected a node or a `goto` below".to_string()),
        }
    }

    fn node_at(&self, label: &str) -> Result<u32, Error> {
        match self.labels.get(label) {
            Some(&node) if node < self.drafts.len() => Ok(node as u32),
            Some(_) => Err(format!("expected a node after the label `{label}`")),
            None => Err(format!(
                "expected a label that stands somewhere, found `{label}`"
            )),
        }
    }
}

fn name(found: Option<&str>, expected: &str) -> Result<String, Error> {
    let found = found.unwrap_or("");
    let begins = found.starts_with(|first: char| first.is_ascii_alphabetic() || first == '_');
    let rest = |byte: u8| byte.is_ascii_alphanumeric() || byte == b'_';
    if begins && found.bytes().all(rest) {
        return Ok(found.to_string());
    }
    Err(format!("expected {expected}, found `{found}`"))
}

fn word(found: Option<&str>) -> Result<u32, Error> {
    let found = found.unwrap_or("");
    let value = match found.strip_prefix("0x") {
        Some(digits) if !digits.starts_with('+') => u32::from_str_radix(digits, 16).ok(),
        Some(_) => None,
        None => crate::arguments::decimal(found),
    };
    value.ok_or(format!(
        "expected a word up to {}, found `{found}`",
        u32::MAX
    ))
}

fn port(found: Option<&str>) -> Result<u32, Error> {
    match word(found) {
        Ok(port) if port <= LAST_PORT => Ok(port),
        _ => Err(format!(
            "expected a port up to {LAST_PORT}, found `{}`",
            found.unwrap_or("")
        )),
    }
}

fn one_of(names: &[&str], found: Option<&str>) -> Result<u32, Error> {
    let found = found.unwrap_or("");
    match names.iter().position(|name| *name == found) {
        Some(index) => Ok(index as u32),
        None => Err(format!(
            "expected one of {}, found `{found}`",
            names.join(" ")
        )),
    }
}

fn keyword(expected: &str, found: Option<&str>) -> Result<(), Error> {
    if found == Some(expected) {
        return Ok(());
    }
    let found = found.unwrap_or("");
    Err(format!("expected `{expected}`, found `{found}`"))
}

/// The readable form of a graph that the reader accepts: registers r0 on,
/// every node under its own label.
pub fn show(graph: &Graph, table: &[u32]) -> String {
    let mut text = "registers".to_string();
    for register in 0..graph.registers {
        text += &format!(" r{register}");
    }
    text += &format!("\nentry n{}\n", graph.entry);
    for node in 0..graph.nodes {
        let row = row(table, node);
        text += &format!("n{node}: {}\n", statement(&row));
        if let Some(word) = next_word(row[0]).filter(|&word| row[word] != node + 1) {
            text += &format!("    goto n{}\n", row[word]);
        }
    }
    text
}

fn statement(row: &Row) -> String {
    match *row {
        [CONST, d, k, ..] => format!("const r{d} {k}"),
        [OP, o, d, a, b, _] => format!("op {} r{d} r{a} r{b}", OPERATORS[o as usize]),
        [BRANCH, c, a, b, then, other] => {
            format!(
                "if r{a} {} r{b} goto n{then} else n{other}",
                TESTS[c as usize]
            )
        }
        [BRANCH_WORD, c, a, k, then, other] => {
            format!(
                "if r{a} {} {k} goto n{then} else n{other}",
                TESTS[c as usize]
            )
        }
        [IN, d, ..] => format!("in r{d}"),
        [OUT, port, a, ..] => format!("out {port} r{a}"),
        [RET, a, ..] => format!("ret r{a}"),
        _ => "catch".to_string(),
    }
}

#[cfg(test)]
mod tests {
    use super::*;

    #[test]
    fn graph_a_assembles_to_its_bytes() {
        let text = "
            registers x y
                    in x
                    if x == 7 goto right      # else the node two below
                    goto wrong
            right:  out 1 x
                    goto done
            wrong:  const y 0x9
            done:   ret y";
        let expected = [
            2, 5, 0, 5, 0, 1, 4, 0, 0, 7, 2, 3, 6, 1, 0, 4, 1, 1, 9, 4, 7, 1,
        ];
        assert_eq!(assemble(text), Ok(expected.to_vec()));
    }

    #[test]
    fn errors_say_the_line() {
        let begins = |text: &str, message: &str| {
            let error = assemble(text).unwrap_err();
            assert!(error.starts_with(message), "{error}");
        };
        begins("in x\nret", "line 2: expected a register name");
        begins("in x\nfly x", "line 2: expected registers, entry");
        begins("in x", "line 1: expected a node or a `goto` below");
        begins("in x\ngoto y", "line 1: expected a label that stands");
        begins("ret x\ngoto y", "line 2: expected a node above");
        begins("a: in x\na: ret x", "line 2: expected a new label");
        begins("registers x\nret y", "line 2: expected a register of");
        begins("out 256 x", "line 1: expected a port up to 255");
        begins("const x 4294967296", "line 1: expected a word up to");
        begins("op mul x x x", "line 1: expected one of add");
        begins("if x = 1 goto a", "line 1: expected one of ==");
        begins("ret x y", "line 1: expected the end of the line");
        begins("", "the file made from this text is refused: 3");
    }
}
