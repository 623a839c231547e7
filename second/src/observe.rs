//! The given programs as a stranger sees them: started with a file and a
//! command line, heard until they end, ended when they hang.

use std::io::{self, Read, Write};
use std::os::unix::process::ExitStatusExt;
use std::path::{Path, PathBuf};
use std::process::{Child, Command, Stdio};
use std::sync::{Arc, Mutex, Weak};
use std::thread;
use std::time::{Duration, Instant};

/// Far more than any answer takes.
const PATIENCE: Duration = Duration::from_secs(60);

/// The paths of the programs.
#[derive(Clone)]
pub struct Programs {
    pub hlist: PathBuf,
    pub hfile: PathBuf,
    pub hrun: PathBuf,
    pub hscore: PathBuf,
}

impl Programs {
    pub fn path(&self, program: &str) -> &Path {
        match program {
            "hlist" => &self.hlist,
            "hfile" => &self.hfile,
            "hrun" => &self.hrun,
            _ => &self.hscore,
        }
    }
}

/// How a program came to its end.
#[derive(Clone, Copy, Debug, PartialEq, Eq)]
pub enum End {
    Status(i32),
    Signal(i32),
    /// It outlasted our patience and had to be ended.
    Hung,
}

/// What a program wrote, text or not, and how it ended.
#[derive(Clone, Debug, PartialEq, Eq)]
pub struct Said {
    pub output: Vec<u8>,
    pub errors: Vec<u8>,
    pub end: End,
}

impl Said {
    /// What an answer looks like: the output alone, nothing beside it.
    pub fn answer(output: &[u8]) -> Self {
        Said {
            output: output.to_vec(),
            errors: Vec::new(),
            end: End::Status(0),
        }
    }

    /// What a bad argument looks like, and to `hfile` a refusal: a line on
    /// standard error, no output.
    pub fn complaint(line: &str) -> Self {
        Said {
            output: Vec::new(),
            errors: format!("{line}\n").into_bytes(),
            end: End::Status(0),
        }
    }
}

struct Running {
    child: Child,
    since: Instant,
    ended: bool,
}

type Slot = Mutex<Option<Running>>;

/// Starts programs one after another for one worker.
pub struct Starter {
    slot: Arc<Slot>,
}

impl Starter {
    pub fn new() -> Self {
        let slot = Arc::new(Mutex::new(None));
        let watched = Arc::downgrade(&slot);
        thread::spawn(move || watch(watched));
        Starter { slot }
    }

    pub fn start(&self, program: &Path, line: &[String], file: &[u8]) -> io::Result<Said> {
        let mut child = Command::new(program)
            .args(line)
            .stdin(Stdio::piped())
            .stdout(Stdio::piped())
            .stderr(Stdio::piped())
            .spawn()?;
        let stdin = child.stdin.take();
        let (stdout, stderr) = (child.stdout.take(), child.stderr.take());
        *self.slot.lock().expect("no worker fails in here") = Some(Running {
            child,
            since: Instant::now(),
            ended: false,
        });
        // A program may answer without having read everything.
        let _ = stdin.map(|mut pipe| pipe.write_all(file));
        let (output, errors) = (heard(stdout)?, heard(stderr)?);
        let end = self.end()?;
        Ok(Said {
            output,
            errors,
            end,
        })
    }

    /// Waits for the end of a program that has closed its outputs. It stays
    /// in its slot meanwhile, since it may still hang.
    fn end(&self) -> io::Result<End> {
        let mut pause = Duration::from_micros(10);
        loop {
            let mut slot = self.slot.lock().expect("no worker fails in here");
            let running = slot.as_mut().expect("it was put there by the start");
            if let Some(status) = running.child.try_wait()? {
                let ended = running.ended;
                *slot = None;
                return Ok(match (ended, status.code()) {
                    (true, _) => End::Hung,
                    (_, Some(code)) => End::Status(code),
                    _ => End::Signal(status.signal().unwrap_or(0)),
                });
            }
            drop(slot);
            thread::sleep(pause);
            pause = (2 * pause).min(Duration::from_millis(20));
        }
    }
}

impl Default for Starter {
    fn default() -> Self {
        Starter::new()
    }
}

fn heard(pipe: Option<impl Read>) -> io::Result<Vec<u8>> {
    let mut bytes = Vec::new();
    if let Some(mut pipe) = pipe {
        pipe.read_to_end(&mut bytes)?;
    }
    Ok(bytes)
}

/// Ends a program that has outlasted our patience, as long as its worker lives.
fn watch(slot: Weak<Slot>) {
    while let Some(slot) = slot.upgrade() {
        if let Some(running) = slot.lock().expect("no worker fails in here").as_mut() {
            if running.since.elapsed() > PATIENCE && !running.ended {
                running.ended = running.child.kill().is_ok();
            }
        }
        drop(slot);
        thread::sleep(Duration::from_millis(250));
    }
}

/// The answer of `hrun`, taken apart.
#[derive(Clone, Debug, PartialEq, Eq)]
pub struct Observed {
    pub outcome: String,
    pub node: u32,
    pub steps: u32,
    pub branches: u32,
    pub reads: u32,
    pub events: Vec<u32>,
    pub registers: Vec<u32>,
}

impl Observed {
    pub fn parse(text: &str) -> Option<Self> {
        let mut lines = text.lines();
        let observed = Observed {
            outcome: lines.next()?.to_string(),
            node: one(lines.next()?, "node")?,
            steps: one(lines.next()?, "steps")?,
            branches: one(lines.next()?, "branches")?,
            reads: one(lines.next()?, "reads")?,
            events: many(lines.next()?, "events")?,
            registers: many(lines.next()?, "registers")?,
        };
        let whole = lines.next().is_none() && observed.registers.len() == 64;
        whole.then_some(observed)
    }
}

fn one(line: &str, name: &str) -> Option<u32> {
    match many(line, name)?[..] {
        [word] => Some(word),
        _ => None,
    }
}

fn many(line: &str, name: &str) -> Option<Vec<u32>> {
    let mut words = line.split(' ');
    if words.next() != Some(name) {
        return None;
    }
    words.map(|word| word.parse().ok()).collect()
}
