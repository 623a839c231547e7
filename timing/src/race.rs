//! Jobs timed in turn.

use std::hint::black_box;
use std::time::{Duration, Instant};

/// Where the stack lies decides how fast copies on it are: so many places are tried.
const PLACES: usize = 16;

/// Jobs and their times. They take turns, each once a turn, for so long that what else the machine
/// does falls on all of them, and of the times at one place of the stack the least is kept.
#[derive(Default)]
pub struct Race<'a> {
    jobs: Vec<Job<'a>>,
}

struct Job<'a> {
    work: Box<dyn FnMut() + 'a>,
    least: [Duration; PLACES],
}

/// A job's number.
#[derive(Clone, Copy)]
pub struct Entry(usize);

impl<'a> Race<'a> {
    pub fn enter(&mut self, work: impl FnMut() + 'a) -> Entry {
        self.jobs.push(Job {
            work: Box::new(work),
            least: [Duration::MAX; PLACES],
        });
        Entry(self.jobs.len() - 1)
    }

    /// Turns until the time is over, each place as often as any other.
    pub fn run(&mut self, time: Duration) {
        let began = Instant::now();
        let mut turns = 0;
        while began.elapsed() < time || turns % PLACES > 0 {
            for job in &mut self.jobs {
                deeper(turns % PLACES, turns % PLACES, job);
            }
            turns += 1;
        }
    }

    /// The least time, at the best place of the stack.
    pub fn time(&self, entry: Entry) -> Duration {
        let least = &self.jobs[entry.0].least;
        *least.iter().min().expect("there are places")
    }
}

impl Job<'_> {
    fn turn(&mut self, place: usize) {
        let began = Instant::now();
        (self.work)();
        self.least[place] = self.least[place].min(began.elapsed());
    }
}

/// Makes a job's turn so many frames further down the stack.
#[inline(never)]
fn deeper(frames: usize, place: usize, job: &mut Job) {
    let frame = black_box([0u8; 16]);
    if frames == 0 {
        job.turn(place);
    } else {
        deeper(frames - 1, place, job);
    }
    black_box(&frame);
}
