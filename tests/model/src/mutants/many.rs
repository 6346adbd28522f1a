//! Mutants broken in a call with many bytes, and in nothing else.

use super::{counted, stretches};
use crate::state::{Phase, Unit, BLOCK};
use crate::{Answer, Outcome, Tapes, Went};
use std::ops::Range;

/// One call in a broken model. A mutant calls `go` for the true call and bends what is around it.
pub(super) struct Call<'a> {
    pub gives: bool,
    pub unit: &'a mut Unit,
    pub tapes: &'a mut Tapes,
    /// The bytes given, or the buffer that bytes are taken into.
    pub bytes: &'a mut [u8],
    pub went: Went,
}

type Spoil = fn(&mut Call);

/// Every mutant by its name; its number is its place, counted from 1.
const MANY: [(&str, Spoil); 34] = [
    ("many: stops before an answer that is not 0", counted::stops_before),
    ("many: goes on after answer 1", counted::goes_on),
    ("many: stops at a block's end", counted::one_block),
    ("many: stops behind a report", counted::report_alone),
    ("many: above 1,024 bytes nothing is looked at", counted::at_most_1024),
    ("many: of the length the low 16 bits count", counted::low_16),
    ("many: a byte refused is counted", counted::refused_counted),
    ("many: an event without a byte is counted", counted::without_byte_counted),
    ("many: byte 512 with answer 1 is not counted", counted::last_not_counted),
    ("many: the result is that of the first event", counted::first_result),
    ("many: the lines are those of before", counted::lines_before),
    ("many: the byte of the last event is not shown", counted::byte_not_shown),
    ("many: no byte, all lines down", counted::nothing_down),
    ("many: no byte, a record that cannot be is answered 5", counted::nothing_five),
    ("many: no byte, a tape too long is answered 6", counted::nothing_six),
    ("many: no byte, out of step is answered 2", counted::nothing_two),
    ("many: no byte, selected above 3 is drive 0", counted::nothing_drive_0),
    ("many: no byte, the edge is checked", counted::nothing_checked),
    ("many: staged one place too far", stretches::staged_too_far),
    ("many: whole blocks are not staged", stretches::not_staged),
    ("many: a part block goes to tape at once", stretches::written_early),
    ("many: what was staged before is not recorded", stretches::part_lost),
    ("many: room is looked at for the first block alone", stretches::room_once),
    ("many: late blocks count as one", stretches::late_once),
    ("many: the place in a block is one short", stretches::place_short),
    ("many: the place is 512 where a block ends", stretches::place_512),
    ("many: a stretch is copied past the end of its block", stretches::past_the_block),
    ("many: a stretch taken begins one place too far", stretches::taken_too_far),
    ("many: octets are taken from the first on", stretches::octets_from_first),
    ("many: the next block is taken with EXCEPTION up", stretches::exception_passed),
    ("many: bytes past those handed out are cleared", stretches::rest_cleared),
    ("many: an event without a byte puts 00", stretches::absent_put),
    ("many: byte 512 with answer 1 is not put", stretches::last_not_put),
    ("many: a refusal leaves the record as before the call", stretches::undone),
];

/// How many there are.
pub const COUNT: usize = MANY.len();

/// What such a mutant does wrong.
pub fn name(number: usize) -> &'static str {
    MANY[number - 1].0
}

/// Bytes given to the model broken by a mutant.
pub fn give(number: usize, unit: &mut Unit, tapes: &mut Tapes, bytes: &[u8]) -> Went {
    let bytes = &mut bytes.to_vec();
    play(number, Call { gives: true, unit, tapes, bytes, went: Went::IMPOSSIBLE })
}

/// Bytes taken from the model broken by a mutant.
pub fn take(number: usize, unit: &mut Unit, tapes: &mut Tapes, bytes: &mut [u8]) -> Went {
    play(number, Call { gives: false, unit, tapes, bytes, went: Went::IMPOSSIBLE })
}

fn play(number: usize, mut call: Call) -> Went {
    MANY[number - 1].1(&mut call);
    call.went
}

impl Call<'_> {
    /// The true call.
    pub fn go(&mut self) {
        self.go_to(self.bytes.len());
    }

    /// The true call with no more bytes than these.
    pub fn go_to(&mut self, most: usize) {
        self.go_in(0..most.min(self.bytes.len()));
    }

    /// The true call with the bytes that have not gone over.
    pub fn go_on(&mut self) {
        let before = self.went.count;
        self.go_in(before..self.bytes.len());
        self.went.count += before;
    }

    fn go_in(&mut self, part: Range<usize>) {
        self.went = match self.gives {
            true => self.unit.give_many(self.tapes, &self.bytes[part]),
            false => self.unit.take_many(self.tapes, &mut self.bytes[part]),
        };
    }

    /// The true call, and the record before it.
    pub fn go_from(&mut self) -> Unit {
        let before = self.unit.clone();
        self.go();
        before
    }

    /// What would come of the call with these bytes; nothing is changed.
    pub fn tried(&self, bytes: &[u8]) -> Went {
        let (mut unit, mut tapes) = (self.unit.clone(), self.tapes.clone());
        let mut bytes = bytes.to_vec();
        let mut call = Call { unit: &mut unit, tapes: &mut tapes, bytes: &mut bytes, ..*self };
        call.go();
        call.went
    }

    /// What a single event of this call would do here.
    pub fn event(&mut self) -> Outcome {
        self.unit.step(self.tapes, if self.gives { &[0x02, 0x00] } else { &[0x03] })
    }

    /// Whether the last event was answered 1 and its byte went over.
    pub fn ended_with_byte(&self, went: &Went) -> bool {
        let moved = self.gives || went.last.byte.is_some();
        went.last.answer == Answer::Exception && moved
    }

    /// Whether the last event was refused.
    pub fn refused(&self) -> bool {
        !self.bytes.is_empty() && !self.went.last.answer.is_taken()
    }

    /// The selected drive, in a record that can be.
    pub fn at(&self) -> Option<usize> {
        (!self.unit.impossible()).then_some(self.unit.selected as usize)
    }
}

/// How many bytes of its block come before a phase; a place that cannot be counts as none.
pub(super) fn place(phase: Phase) -> usize {
    match phase {
        Phase::Taking(n) | Phase::Giving(n) if n < BLOCK => n as usize,
        _ => 0,
    }
}
