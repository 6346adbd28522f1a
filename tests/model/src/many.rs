//! Many bytes in one call: one event after the other, up to the first that is not answered 0.

use crate::{Answer, Outcome, Tapes, Unit};

/// What came of a call.
#[derive(Clone, Copy, PartialEq, Eq, Debug)]
pub struct Went {
    /// The bytes that went over.
    pub count: usize,
    /// What the host sees of the last event.
    pub last: Outcome,
}

impl Went {
    /// Nothing goes over in a buffer that is no record, nor in a record that cannot be.
    pub const IMPOSSIBLE: Went = Went { count: 0, last: Outcome::IMPOSSIBLE };
}

impl Unit {
    /// The host gives these bytes, by event 02 for each.
    pub fn give_many(&mut self, tapes: &mut Tapes, bytes: &[u8]) -> Went {
        give_by(self.no_event(), bytes, |event| self.step(tapes, event))
    }

    /// The host takes as many bytes as the buffer has places, by event 03 for each.
    pub fn take_many(&mut self, tapes: &mut Tapes, bytes: &mut [u8]) -> Went {
        take_by(self.no_event(), bytes, |event| self.step(tapes, event))
    }

    /// Where no event came there is nothing to see but the lines as they stand.
    fn no_event(&self) -> Outcome {
        Outcome { answer: Answer::Taken, byte: None, lines: self.lines() }
    }
}

/// Bytes given by these steps: all went over that were not refused.
pub fn give_by(no_event: Outcome, bytes: &[u8], mut step: impl FnMut(&[u8]) -> Outcome) -> Went {
    let mut went = Went { count: 0, last: no_event };
    for &byte in bytes {
        went.last = step(&[0x02, byte]);
        went.count += went.last.answer.is_taken() as usize;
        if went.last.answer != Answer::Taken {
            break;
        }
    }
    went
}

/// Bytes taken by these steps: those handed out stand at the front of the buffer.
pub fn take_by(
    no_event: Outcome,
    bytes: &mut [u8],
    mut step: impl FnMut(&[u8]) -> Outcome,
) -> Went {
    let mut went = Went { count: 0, last: no_event };
    for _ in 0..bytes.len() {
        went.last = step(&[0x03]);
        if let Some(byte) = went.last.byte {
            bytes[went.count] = byte;
            went.count += 1;
        }
        if went.last.answer != Answer::Taken {
            break;
        }
    }
    went
}
