//! Names for what a call with many bytes came to, and the event that was its last.

use crate::probe::frame::{Asked, Step};
use crate::probe::happened::Happenings;
use crate::probe::reply::{Came, Stepped};
use crate::state::{Phase, Unit, BLOCK};
use crate::{Event, Tapes};

/// What bytes given in one call can come to, and how that can end.
pub const GIVEN: Happenings = &[
    ("no event", &["possible", "impossible"]),
    ("no block's end", &["inside", "refused"]),
    ("one block's end", &["inside", "at the end", "EXCEPTION"]),
    ("two block ends", &["inside", "at the end", "EXCEPTION"]),
    ("three block ends", &["inside", "at the end", "EXCEPTION"]),
];

/// The same of bytes taken; EXCEPTION that was up before lets a block be finished and no more.
pub const TAKEN: Happenings = &[
    ("no event", &["possible", "impossible"]),
    ("no block's end", &["inside", "EXCEPTION", "refused"]),
    ("one block's end", &["inside", "at the end", "EXCEPTION", "refused"]),
    ("two block ends", &["inside", "at the end", "EXCEPTION"]),
    ("three block ends", &["inside", "at the end", "EXCEPTION"]),
    ("a report", &["inside", "at the end", "EXCEPTION", "refused"]),
    ("a report and data", &["inside", "at the end", "EXCEPTION"]),
];

/// A call as the events that it stands for.
pub struct Many {
    pub gives: bool,
    /// Bytes that went over.
    count: usize,
    pub events: usize,
}

impl Many {
    pub fn of(step: &Step, stepped: &Stepped) -> Many {
        let (Asked::Give(bytes) | Asked::Take(bytes) | Asked::Event(bytes)) = &step.asked;
        let [answer, given, ..] = stepped.result;
        let (gives, count, last) = match stepped.came {
            Came::Give(count) => (true, count, answer < 2),
            Came::Take(count, _) => (false, count, given == 1),
            Came::Event => unreachable!("an event is no call with many bytes"),
        };
        // The last event may have moved no byte.
        let more = !bytes.is_empty() && !last;
        Many { gives, count: count as usize, events: count as usize + more as usize }
    }

    /// How much was gone through, and where it ended.
    pub fn ended(&self, before: &Unit, after: &Unit, answer: u8) -> (&'static str, &'static str) {
        if self.events == 0 {
            return ("no event", if before.impossible() { "impossible" } else { "possible" });
        }
        let what = match before.phase {
            Phase::Status(k) if self.count as u64 <= k => "a report",
            Phase::Status(_) => "a report and data",
            Phase::Taking(n) | Phase::Giving(n) => self.over(n),
            Phase::Rest => self.over(0),
        };
        let how = match (answer, after.phase) {
            (0, Phase::Rest) => "at the end",
            (0, _) => "inside",
            (1, _) => "EXCEPTION",
            _ => "refused",
        };
        (what, how)
    }

    /// Over how many ends of blocks it went from this place on.
    fn over(&self, place: u64) -> &'static str {
        match (place + self.count as u64) / BLOCK {
            0 => "no block's end",
            1 => "one block's end",
            2 => "two block ends",
            _ => "three block ends",
        }
    }

    /// The record as the last event found it.
    pub fn before_last(&self, mut unit: Unit, step: &Step) -> Unit {
        if self.events > 1 {
            let mut tapes = Tapes::default();
            step.tapes.iter().zip(&mut tapes).for_each(|(lent, tape)| lent.fill(tape));
            match &step.asked {
                Asked::Give(bytes) => unit.give_many(&mut tapes, &bytes[..self.events - 1]),
                _ => unit.take_many(&mut tapes, &mut vec![0; self.events - 1]),
            };
        }
        unit
    }

    /// The last event; which byte it gave does not matter.
    pub fn last_event(&self) -> Event {
        if self.gives {
            Event::Give(0)
        } else {
            Event::Take
        }
    }
}
