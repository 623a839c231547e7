//! The proved entry points over files and tables, as Rust functions. A call hands out one number of
//! the answer, by its place; `crates/yardstick/specs/Parts.antt` sets out which number stands where.
//! The proved code is compiled for x86-64, and linked on such a machine alone.

mod direct;

pub use direct::{campaign, check_runnable, check_source, harden, read, run, write};

/// What stands beside a table: R, N and the entry node. Any number may be given.
#[derive(Clone, Copy, Debug, PartialEq, Eq)]
pub struct Header {
    pub registers: usize,
    pub nodes: usize,
    pub entry: usize,
}

/// How many numbers a check's answer has: the refusal's number and place, or 0 and 0. The other
/// answers begin with the same two.
pub const CHECK_NUMBERS: usize = 2;
/// Then how many bytes a file has.
pub const SIZE_NUMBERS: usize = 3;
/// Then R, N and entry.
pub const GRAPH_NUMBERS: usize = 5;
/// Then the outcome from 1 (Returned, Caught, Spent, Full), the value, node, steps, branches, reads
/// and events, and 64 registers.
pub const RUN_NUMBERS: usize = 73;
/// Then positions and the five counts.
pub const SCORE_NUMBERS: usize = 8;
