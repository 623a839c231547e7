//! The second program: graph files, the hardener and the bench read anew
//! from the scope document, and the comparison with the proved programs.
#![forbid(unsafe_code)]

pub mod arguments;
pub mod blocks;
pub mod campaign;
pub mod compare;
pub mod damage;
pub mod demand3;
pub mod dice;
pub mod examples;
pub mod fast;
pub mod file;
pub mod generate;
pub mod graph;
pub mod harden;
pub mod mix;
pub mod observe;
pub mod options;
pub mod programs;
pub mod readback;
pub mod refusal;
pub mod report;
pub mod run;
pub mod shapes;
pub mod special;
pub mod table;
pub mod text;
