//! The comparison of a program with the model's `replay`.

mod ending;
pub mod program;
pub mod random;
pub mod records;
pub mod report;
pub mod runner;
pub mod script;
pub mod shrink;
pub mod steer;
pub mod suites;
