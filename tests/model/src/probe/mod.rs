//! The comparison of a board, call by call, on any record, any tapes, and any event or bytes.

pub mod board;
pub mod codec;
pub mod coverage;
pub mod frame;
pub mod generate;
mod happened;
mod late;
mod many;
mod misread;
pub mod mutants;
pub mod reply;
pub mod report;
pub mod runner;
pub mod shrink;
pub mod tally;
mod wrong;

#[cfg(test)]
mod codec_tests;
