//! The proved tape unit: four QIC-02 drives on one cable, for firmware in Rust.
//!
//! A [`Unit`] owns its record. It is lent the bytes of the four cartridges with each event, answers
//! the event, and keeps nothing else: no memory is allocated, there is no state but the record, and
//! no operating system is needed.
//! What each event does is proved, for every record, every tape and every event; `docs/BOARD.md`
//! in the repository says what that means, and how the static library behind this crate is made.
//!
//! ```
//! use glenoulty::{event, Answer, Order, Unit};
//!
//! let mut tapes = [[0u8; 16384]; 4];
//! let mut unit = Unit::fresh();
//! let mut send = |event: &[u8]| unit.step(tapes.each_mut().map(|tape| &mut tape[..]), event);
//! assert_eq!(send(&event::cartridge_in(0, false)).answer, Answer::Taken);
//! // the report that a drive wants after power on
//! assert_eq!(send(&event::order(Order::ReadStatus)).answer, Answer::Taken);
//! assert_eq!(send(&event::TAKE).byte, Some(0x00));
//! assert_eq!(send(&event::TAKE).byte, Some(0x89));
//! ```
//!
//! Data goes by [`Unit::write`] and [`Unit::read`], any number of bytes in one call.
#![no_std]

pub mod event;
mod order;
mod raw;
pub mod report;

pub use order::Order;

/// The bytes of a record.
pub const SIZE: usize = 658;

/// The longest tape, in bytes.
pub const LONGEST: usize = 16_777_216;

/// The bytes of a block.
pub const BLOCK: usize = 512;

/// The record of a unit, all that it knows between two events.
#[derive(Clone, PartialEq, Eq)]
pub struct Unit {
    record: [u8; SIZE],
}

/// What an event was answered with, in the order of the numbers.
#[derive(Clone, Copy, Debug, PartialEq, Eq)]
pub enum Answer {
    /// Taken.
    Taken,
    /// Taken, and EXCEPTION was raised: READ STATUS tells why.
    Exception,
    /// Refused: out of step with what the unit is doing.
    OutOfStep,
    /// Refused: no cartridge in that slot, or one too many.
    WrongSlot,
    /// Refused: bytes that are no event.
    NoEvent,
    /// Refused: the buffer holds no record, or one that cannot be. A [`Unit`] never gives it.
    NoRecord,
    /// Refused: a tape is longer than [`LONGEST`].
    TooLong,
}

/// The lines of the cable, true if up.
#[derive(Clone, Copy, Debug, Default, PartialEq, Eq)]
pub struct Lines {
    pub ready: bool,
    pub exception: bool,
    pub direction: bool,
}

/// What came of an event.
#[derive(Clone, Copy, Debug, PartialEq, Eq)]
pub struct Outcome {
    pub answer: Answer,
    /// The byte that the event handed out.
    pub byte: Option<u8>,
    /// The lines after the event.
    pub lines: Lines,
}

/// What came of bytes that were written or read in one call.
#[derive(Clone, Copy, Debug, PartialEq, Eq)]
pub struct Moved {
    /// How many bytes went over.
    pub count: usize,
    /// What came of the last event; with no bytes there is none: taken, no byte, the lines as they stand.
    pub outcome: Outcome,
}

impl Answer {
    /// The answers 0 to 6.
    pub const ALL: [Answer; 7] = [
        Answer::Taken,
        Answer::Exception,
        Answer::OutOfStep,
        Answer::WrongSlot,
        Answer::NoEvent,
        Answer::NoRecord,
        Answer::TooLong,
    ];

    /// Its number, 0 to 6.
    pub fn number(self) -> u8 {
        self as u8
    }

    /// True where the event was refused, which leaves record and tapes as they were.
    pub fn is_refusal(self) -> bool {
        self.number() >= Answer::OutOfStep.number()
    }
}

impl Unit {
    /// A unit that was just switched on: no cartridges, EXCEPTION up on all four drives.
    pub fn fresh() -> Unit {
        let mut record = [0; SIZE];
        let answer = raw::fresh(&mut record);
        assert_eq!(answer, 0, "the library has records of another size");
        Unit { record }
    }

    /// The unit whose record was stored, or nothing where the bytes are no record or one that cannot be.
    pub fn from_bytes(bytes: &[u8]) -> Option<Unit> {
        let record = bytes.try_into().ok()?;
        let unit = Unit { record };
        raw::lines(&unit.record).map(|_| unit)
    }

    /// The record, to be stored. Equal units have equal bytes.
    pub fn as_bytes(&self) -> &[u8; SIZE] {
        &self.record
    }

    /// Answers one event; of the tapes at most the selected drive's is changed.
    pub fn step(&mut self, tapes: [&mut [u8]; 4], event: &[u8]) -> Outcome {
        raw::step(&mut self.record, tapes, event).into()
    }

    /// Gives data bytes as one [`event::give`] for each would, up to and with the first that is not answered
    /// [`Answer::Taken`]. A refused byte is not counted.
    ///
    /// ```
    /// use glenoulty::{event, Answer, Order, Unit, BLOCK};
    ///
    /// fn lend(tapes: &mut [[u8; 16384]; 4]) -> [&mut [u8]; 4] {
    ///     tapes.each_mut().map(|tape| &mut tape[..])
    /// }
    /// let mut tapes = [[0; 16384]; 4];
    /// let mut unit = Unit::fresh();
    /// unit.step(lend(&mut tapes), &event::cartridge_in(0, false));
    /// unit.step(lend(&mut tapes), &event::ONLINE);
    /// unit.step(lend(&mut tapes), &event::order(Order::ReadStatus));
    /// let mut octets = [0; 6];
    /// assert_eq!(unit.read(lend(&mut tapes), &mut octets).count, 6);
    /// assert_eq!(octets, [0x00, 0x89, 0, 0, 0, 0]);
    ///
    /// unit.step(lend(&mut tapes), &event::order(Order::Write));
    /// let moved = unit.write(lend(&mut tapes), &[7; 2 * BLOCK]);
    /// assert_eq!((moved.count, moved.outcome.answer), (2 * BLOCK, Answer::Taken));
    /// ```
    pub fn write(&mut self, tapes: [&mut [u8]; 4], bytes: &[u8]) -> Moved {
        raw::give(&mut self.record, tapes, bytes).into()
    }

    /// Takes bytes of blocks, or octets of the report, as one [`event::TAKE`] for each would, up to and with the
    /// first that is not answered [`Answer::Taken`]. They stand at the front of `buffer`; the rest of it is as it was.
    pub fn read(&mut self, tapes: [&mut [u8]; 4], buffer: &mut [u8]) -> Moved {
        raw::take(&mut self.record, tapes, buffer).into()
    }

    /// The lines of the cable as they stand.
    pub fn lines(&self) -> Lines {
        raw::lines(&self.record).map(Lines::from).unwrap_or_default()
    }
}

impl Default for Unit {
    fn default() -> Unit {
        Unit::fresh()
    }
}

impl core::fmt::Debug for Unit {
    fn fmt(&self, f: &mut core::fmt::Formatter<'_>) -> core::fmt::Result {
        f.debug_struct("Unit").field("lines", &self.lines()).finish_non_exhaustive()
    }
}

impl From<raw::Lines> for Lines {
    fn from(lines: raw::Lines) -> Lines {
        Lines {
            ready: lines.ready != 0,
            exception: lines.exception != 0,
            direction: lines.direction != 0,
        }
    }
}

impl From<raw::Outcome> for Outcome {
    fn from(outcome: raw::Outcome) -> Outcome {
        Outcome {
            answer: Answer::ALL[usize::from(outcome.answer)],
            byte: (outcome.given != 0).then_some(outcome.byte),
            lines: outcome.lines.into(),
        }
    }
}

impl From<(usize, raw::Outcome)> for Moved {
    fn from((count, outcome): (usize, raw::Outcome)) -> Moved {
        Moved { count, outcome: outcome.into() }
    }
}
