//! The model as a board: records are bytes, and frames are answered with replies.

use crate::compare::program::{Feed, Program};
use crate::probe::codec;
use crate::probe::frame::{Asked, Frame, Step};
use crate::probe::reply::{result, Came, Reply, Stepped, Trimmed};
use crate::{Answer, Lines, Outcome, Tapes, Unit, Went};

/// The calls of a board; left as they are here, they are the model's.
pub trait Board {
    fn size(&mut self) -> u64 {
        codec::SIZE as u64
    }

    fn fresh(&mut self, record: &mut [u8]) -> u8 {
        if record.len() != codec::SIZE {
            return Answer::ImpossibleRecord as u8;
        }
        record.copy_from_slice(&codec::encode(&Unit::fresh()));
        0
    }

    fn step(&mut self, record: &mut Vec<u8>, tapes: &mut Tapes, event: &[u8]) -> Outcome {
        step_with(record, |unit| unit.step(tapes, event))
    }

    fn give(&mut self, record: &mut Vec<u8>, tapes: &mut Tapes, bytes: &[u8]) -> Went {
        many_with(record, |unit| unit.give_many(tapes, bytes))
    }

    fn take(&mut self, record: &mut Vec<u8>, tapes: &mut Tapes, bytes: &mut [u8]) -> Went {
        many_with(record, |unit| unit.take_many(tapes, bytes))
    }

    fn lines(&mut self, record: &[u8]) -> (u8, Lines) {
        match codec::decode(record) {
            Ok(unit) if !unit.impossible() => (0, unit.lines()),
            _ => (Answer::ImpossibleRecord as u8, Lines::default()),
        }
    }
}

/// The model itself.
pub struct Model;

impl Board for Model {}

/// A step of the record that the bytes are; bytes that are none are answered 5 and left.
pub fn step_with(record: &mut Vec<u8>, step: impl FnOnce(&mut Unit) -> Outcome) -> Outcome {
    on_record(record, step).unwrap_or(Outcome::IMPOSSIBLE)
}

/// The same with many bytes.
pub fn many_with(record: &mut Vec<u8>, call: impl FnOnce(&mut Unit) -> Went) -> Went {
    on_record(record, call).unwrap_or(Went::IMPOSSIBLE)
}

/// Changes the record that the bytes are, if they are one.
fn on_record<T>(record: &mut Vec<u8>, change: impl FnOnce(&mut Unit) -> T) -> Option<T> {
    let mut unit = codec::decode(record).ok()?;
    let came = change(&mut unit);
    *record = codec::encode(&unit);
    Some(came)
}

/// A board with the buffers that it is lent.
pub struct Bench {
    board: Box<dyn Board>,
    tapes: Tapes,
}

impl Bench {
    pub fn new(board: Box<dyn Board>) -> Bench {
        Bench { board, tapes: Tapes::default() }
    }

    pub fn reply(&mut self, frame: &Frame) -> Reply {
        match frame {
            Frame::Size => Reply::Size(self.board.size()),
            Frame::Fresh(record) => {
                let mut record = record.clone();
                Reply::Fresh(self.board.fresh(&mut record), record)
            }
            Frame::Step(step) => Reply::Step(self.step(step)),
        }
    }

    pub fn step(&mut self, step: &Step) -> Stepped {
        for (tape, lent) in self.tapes.iter_mut().zip(&step.tapes) {
            lent.fill(tape);
        }
        let mut record = step.record.clone();
        let (outcome, came) = self.call(&mut record, &step.asked);
        let (returned, lines) = self.board.lines(&record);
        Stepped {
            result: result(&outcome),
            lines: [returned, lines.ready as u8, lines.exception as u8, lines.direction as u8],
            record,
            tapes: std::array::from_fn(|at| Trimmed::of(&self.tapes[at])),
            came,
        }
    }

    /// What is asked, on the tapes as they are filled.
    fn call(&mut self, record: &mut Vec<u8>, asked: &Asked) -> (Outcome, Came) {
        let Bench { board, tapes } = self;
        match asked {
            Asked::Event(event) => (board.step(record, tapes, event), Came::Event),
            Asked::Give(bytes) => {
                let went = board.give(record, tapes, bytes);
                (went.last, Came::Give(went.count as u64))
            }
            Asked::Take(before) => {
                let mut buffer = before.clone();
                let went = board.take(record, tapes, &mut buffer);
                (went.last, Came::Take(went.count as u64, buffer))
            }
        }
    }

    /// The replies to all frames.
    pub fn replies(&mut self, mut frames: &[u8]) -> Result<Vec<u8>, String> {
        let mut replies = Vec::with_capacity(frames.len());
        while let Some(frame) = Frame::read(&mut frames)? {
            self.reply(&frame).write(&mut replies);
        }
        Ok(replies)
    }
}

/// A board that answers frames without a process.
pub struct Within(pub fn(usize) -> Box<dyn Board>, pub usize);

impl Program for Within {
    fn run(&self, frames: &[u8], _: Feed) -> Result<Vec<u8>, String> {
        Bench::new(self.0(self.1)).replies(frames)
    }
}
