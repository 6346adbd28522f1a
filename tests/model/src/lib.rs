//! An independent model of the tape unit of documents 01 and 02, and what compares `replay`
//! and a board with it.
//!
//! `Unit::step` is the unit; the modules beside it hold one part of the documents each.

pub mod answers;
mod bytes;
mod cartridges;
pub mod commands;
pub mod compare;
pub mod events;
pub mod lines;
pub mod listing;
pub mod many;
pub mod mutants;
mod octets;
mod online;
pub mod probe;
mod refusals;
pub mod replay;
pub mod state;
pub mod tape;

#[cfg(test)]
mod bad_records;
#[cfg(test)]
mod bytes_in_one_call;
#[cfg(test)]
mod easy_to_get_wrong;
#[cfg(test)]
mod late_blocks;
#[cfg(test)]
mod runs_to_check;
#[cfg(test)]
mod set_records;

pub use answers::{Answer, Outcome};
pub use events::Event;
pub use lines::Lines;
pub use many::Went;
pub use replay::replay;
pub use state::{Drive, Latched, Mode, Phase, Unit};

/// The four lent tapes, one per drive.
pub type Tapes = [Vec<u8>; 4];
