//! A call of one entry point: all that is given to it, and the buffers that are lent.

use linked::{Header, CHECK_NUMBERS, GRAPH_NUMBERS, RUN_NUMBERS, SCORE_NUMBERS, SIZE_NUMBERS};
use std::fmt;

#[derive(Clone, Copy, Debug, PartialEq, Eq, PartialOrd, Ord)]
pub enum Entry {
    Read,
    Write,
    CheckRunnable,
    CheckSource,
    Harden,
    Run,
    Campaign,
}

pub const ENTRIES: [Entry; 7] = [
    Entry::Read,
    Entry::Write,
    Entry::CheckRunnable,
    Entry::CheckSource,
    Entry::Harden,
    Entry::Run,
    Entry::Campaign,
];

/// A header and a table that need not fit each other.
#[derive(Clone, PartialEq, Eq)]
pub struct Held {
    pub header: Header,
    pub table: Vec<u32>,
}

/// Lent buffers: words, in the order of the arguments, and bytes, which only writing takes.
#[derive(Clone, Default, PartialEq, Eq)]
pub struct Buffers {
    pub words: Vec<Vec<u32>>,
    pub bytes: Vec<u8>,
}

/// An entry point takes the bytes or the table, and a run and a campaign all that follows; it does
/// not see the rest.
#[derive(Clone)]
pub struct Call<'a> {
    pub entry: Entry,
    pub bytes: &'a [u8],
    pub held: &'a Held,
    pub input: &'a [u32],
    pub budget: usize,
    pub fault: Option<usize>,
    /// What the lent buffers hold before the call.
    pub lent: Buffers,
}

/// What came of a call: every number of the answer, and what the lent buffers hold after it.
#[derive(Clone, PartialEq, Eq)]
pub struct Answered {
    pub numbers: Vec<usize>,
    pub lent: Buffers,
}

impl<'a> Call<'a> {
    /// A call with nothing lent, no input and no budget.
    pub fn new(entry: Entry, bytes: &'a [u8], held: &'a Held) -> Self {
        Call {
            entry,
            bytes,
            held,
            input: &[],
            budget: 0,
            fault: None,
            lent: Buffers::default(),
        }
    }
}

impl Answered {
    /// The refusal's number, 0 where nothing was refused.
    pub fn refusal(&self) -> usize {
        self.numbers[0]
    }

    pub fn place(&self) -> usize {
        self.numbers[1]
    }
}

impl Entry {
    pub fn name(self) -> &'static str {
        match self {
            Entry::Read => "read",
            Entry::Write => "write",
            Entry::CheckRunnable => "check_runnable",
            Entry::CheckSource => "check_source",
            Entry::Harden => "harden",
            Entry::Run => "run",
            Entry::Campaign => "campaign",
        }
    }

    /// How many numbers the answer has.
    pub fn numbers(self) -> usize {
        match self {
            Entry::CheckRunnable | Entry::CheckSource => CHECK_NUMBERS,
            Entry::Write => SIZE_NUMBERS,
            Entry::Read | Entry::Harden => GRAPH_NUMBERS,
            Entry::Run => RUN_NUMBERS,
            Entry::Campaign => SCORE_NUMBERS,
        }
    }
}

impl fmt::Display for Call<'_> {
    fn fmt(&self, f: &mut fmt::Formatter) -> fmt::Result {
        let Header {
            registers,
            nodes,
            entry,
        } = self.held.header;
        match self.entry {
            Entry::Read => write!(f, "read\n  bytes {}", words(self.bytes))?,
            other => {
                let (name, table) = (other.name(), words(&self.held.table));
                write!(
                    f,
                    "{name} R {registers}, N {nodes}, entry {entry}\n  table {table}"
                )?;
            }
        }
        if matches!(self.entry, Entry::Run | Entry::Campaign) {
            let (input, budget, fault) = (words(self.input), self.budget, self.fault);
            write!(f, "\n  input {input}\n  budget {budget}, fault {fault:?}")?;
        }
        write!(f, "{}", self.lent)
    }
}

impl fmt::Display for Answered {
    fn fmt(&self, f: &mut fmt::Formatter) -> fmt::Result {
        write!(f, "{:?}{}", self.numbers, self.lent)
    }
}

impl fmt::Display for Buffers {
    fn fmt(&self, f: &mut fmt::Formatter) -> fmt::Result {
        for lent in &self.words {
            write!(f, "\n  lent {}", words(lent))?;
        }
        if self.bytes.is_empty() {
            return Ok(());
        }
        write!(f, "\n  lent bytes {}", words(&self.bytes))
    }
}

/// Longer lists are shown by their beginning; the case makes them whole again.
const SHOWN: usize = 240;

fn words<T: ToString>(list: &[T]) -> String {
    let shown: Vec<String> = list.iter().take(SHOWN).map(T::to_string).collect();
    let more = if list.len() > SHOWN { " .." } else { "" };
    format!("({}): {}{more}", list.len(), shown.join(" "))
}
