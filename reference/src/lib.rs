//! Reads, writes and runs trust books. It is written for plainness, to be
//! compared with a runner that is written for proof.

pub mod book;
pub mod builder;
mod case_lines;
pub mod comparison_cases;
mod decode;
pub mod deepest;
pub mod edges;
pub mod format_cases;
pub mod generate;
mod interpreter;
pub mod notation;
pub mod places;
pub mod random;
pub mod rights;
pub mod run;
pub mod run_cases;
pub mod run_list;
pub mod writer;
