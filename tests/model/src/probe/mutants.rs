//! Boards with one thing broken on purpose: in a step, in the bytes of a record, or in a call.

use crate::many::{give_by, take_by};
use crate::mutants::{self, hidden, many};
use crate::probe::board::{many_with, step_with, Board, Model};
use crate::probe::codec::{self, DRIVE, DRIVES, LATE, SIZE};
use crate::probe::misread::{Misreading, MISREAD};
use crate::{Answer, Lines, Outcome, Tapes, Went};

const CALLS: [(&str, Call); 8] = [
    ("lines of an impossible record are shown", Call::LinesShown),
    ("the lines call says 0 to what is no record", Call::LinesTaken),
    ("the lines call does not look at late", Call::LinesLate),
    ("a fresh record with late blocks in drive 2", Call::FreshLate),
    ("a fresh record in a longer buffer", Call::FreshLonger),
    ("a fresh record without POR in drive 3", Call::FreshQuiet),
    ("a buffer of another length is cleared", Call::FreshClears),
    ("a record is said to have 657 bytes", Call::Size),
];

#[derive(Clone, Copy, PartialEq)]
enum Call {
    LinesShown,
    LinesTaken,
    LinesLate,
    FreshLate,
    FreshLonger,
    FreshQuiet,
    FreshClears,
    Size,
}

/// What is made of a call with many bytes, and of these, where there is no record.
type Bend = fn(&mut Went, &mut [u8]);

const NO_RECORD: [(&str, Bend); 3] = [
    ("many: no byte and no record are answered 0", |went, bytes| {
        if bytes.is_empty() {
            went.last.answer = Answer::Taken;
        }
    }),
    ("many: what is no record clears the buffer", |_, bytes| bytes.fill(0)),
    ("many: what is no record takes all bytes", |went, bytes| went.count = bytes.len()),
];

/// Where the numbers of each sort of mutant begin: after those of `replay`.
const HIDDEN: usize = mutants::COUNT;
const BYTES: usize = HIDDEN + hidden::COUNT;
const OTHER: usize = BYTES + MISREAD.len();
const MANY: usize = OTHER + CALLS.len();
const NONE: usize = MANY + many::COUNT;

/// The largest number of a mutant.
pub const COUNT: usize = NONE + NO_RECORD.len();

/// All mutants that a frame can show; those of the text of `replay` are none.
pub fn numbers() -> impl Iterator<Item = usize> {
    (1..=COUNT).filter(|&number| number > HIDDEN || mutants::breaks_steps(number))
}

/// Whether a mutant breaks nothing but calls with many bytes.
pub fn breaks_many(number: usize) -> bool {
    number > MANY
}

/// What a mutant does wrong.
pub fn name(number: usize) -> &'static str {
    match number {
        n if n <= HIDDEN => mutants::name(n),
        n if n <= BYTES => hidden::name(n - HIDDEN),
        n if n <= OTHER => MISREAD[n - BYTES - 1].0,
        n if n <= MANY => CALLS[n - OTHER - 1].0,
        n if n <= NONE => many::name(n - MANY),
        n => NO_RECORD[n - NONE - 1].0,
    }
}

/// The board that a mutant is; 0 is the model itself.
pub fn board(number: usize) -> Box<dyn Board> {
    match number {
        0 => Box::new(Model),
        n if n <= HIDDEN => Box::new(Stepping { number, memory: 0 }),
        n if n <= BYTES => Box::new(Hidden(n - HIDDEN)),
        n if n <= OTHER => Box::new(Misreading(&MISREAD[n - BYTES - 1].1)),
        n if n <= MANY => Box::new(Calling(CALLS[n - OTHER - 1].1)),
        n if n <= NONE => Box::new(Many(n - MANY)),
        n => Box::new(NoRecord(NO_RECORD[n - NONE - 1].1)),
    }
}

/// The board whose calls with many bytes are made of the steps of a mutant, for each mutant that
/// breaks a step or misreads a record.
pub fn by_many() -> impl Iterator<Item = (usize, Box<dyn Board>)> {
    let broken = numbers().take_while(|&number| number <= OTHER);
    broken.map(|number| (number, Box::new(ByMany(board(number))) as Box<dyn Board>))
}

/// A mutant of `replay`, with what it remembers.
struct Stepping {
    number: usize,
    memory: u64,
}

impl Board for Stepping {
    fn step(&mut self, record: &mut Vec<u8>, tapes: &mut Tapes, event: &[u8]) -> Outcome {
        let Stepping { number, memory } = self;
        step_with(record, |unit| mutants::step(*number, unit, tapes, event, memory))
    }
}

struct Hidden(usize);

impl Board for Hidden {
    fn step(&mut self, record: &mut Vec<u8>, tapes: &mut Tapes, event: &[u8]) -> Outcome {
        step_with(record, |unit| hidden::step(self.0, unit, tapes, event))
    }
}

struct Many(usize);

impl Board for Many {
    fn give(&mut self, record: &mut Vec<u8>, tapes: &mut Tapes, bytes: &[u8]) -> Went {
        many_with(record, |unit| many::give(self.0, unit, tapes, bytes))
    }

    fn take(&mut self, record: &mut Vec<u8>, tapes: &mut Tapes, bytes: &mut [u8]) -> Went {
        many_with(record, |unit| many::take(self.0, unit, tapes, bytes))
    }
}

struct NoRecord(Bend);

impl Board for NoRecord {
    fn give(&mut self, record: &mut Vec<u8>, tapes: &mut Tapes, bytes: &[u8]) -> Went {
        let mut went = Model.give(record, tapes, bytes);
        if codec::decode(record).is_err() {
            self.0(&mut went, &mut bytes.to_vec());
        }
        went
    }

    fn take(&mut self, record: &mut Vec<u8>, tapes: &mut Tapes, bytes: &mut [u8]) -> Went {
        let mut went = Model.take(record, tapes, bytes);
        if codec::decode(record).is_err() {
            self.0(&mut went, bytes);
        }
        went
    }
}

struct ByMany(Box<dyn Board>);

impl Board for ByMany {
    fn step(&mut self, record: &mut Vec<u8>, tapes: &mut Tapes, event: &[u8]) -> Outcome {
        self.0.step(record, tapes, event)
    }

    fn give(&mut self, record: &mut Vec<u8>, tapes: &mut Tapes, bytes: &[u8]) -> Went {
        let no_event = Model.give(record, tapes, &[]).last;
        give_by(no_event, bytes, |event| self.step(record, tapes, event))
    }

    fn take(&mut self, record: &mut Vec<u8>, tapes: &mut Tapes, bytes: &mut [u8]) -> Went {
        let no_event = Model.take(record, tapes, &mut []).last;
        take_by(no_event, bytes, |event| self.step(record, tapes, event))
    }
}

struct Calling(Call);

impl Board for Calling {
    fn size(&mut self) -> u64 {
        SIZE as u64 - (self.0 == Call::Size) as u64
    }

    fn fresh(&mut self, record: &mut [u8]) -> u8 {
        match (self.0, record.len()) {
            (Call::FreshLonger, SIZE..) => Model.fresh(&mut record[..SIZE]),
            (Call::FreshQuiet, SIZE) => fresh_with(record, DRIVES + 3 * DRIVE + 29, 0),
            (Call::FreshLate, SIZE) => fresh_with(record, DRIVES + 2 * DRIVE + LATE, 2),
            (Call::FreshClears, length) if length != SIZE => {
                record.fill(0);
                5
            }
            _ => Model.fresh(record),
        }
    }

    fn lines(&mut self, record: &[u8]) -> (u8, Lines) {
        match (self.0, codec::decode(record)) {
            (Call::LinesShown, Ok(unit)) if unit.impossible() => (5, unit.lines()),
            (Call::LinesTaken, Err(_)) => (0, Lines::default()),
            (Call::LinesLate, Ok(mut unit)) => {
                unit.drives.iter_mut().for_each(|drive| drive.late = 0);
                Model.lines(&codec::encode(&unit))
            }
            _ => Model.lines(record),
        }
    }
}

/// A fresh record with one byte changed.
fn fresh_with(record: &mut [u8], at: usize, byte: u8) -> u8 {
    let returned = Model.fresh(record);
    record[at] = byte;
    returned
}
