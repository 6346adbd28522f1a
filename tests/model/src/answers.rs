//! One event step: which answer is given, and what the host sees of it.

use crate::lines::Lines;
use crate::state::{Unit, LONGEST};
use crate::{Event, Tapes};

/// The answers, by their numbers.
#[derive(Clone, Copy, PartialEq, Eq, Debug)]
#[repr(u8)]
pub enum Answer {
    Taken = 0,
    Exception = 1,
    OutOfStep = 2,
    WrongCartridge = 3,
    Malformed = 4,
    ImpossibleRecord = 5,
    TapeTooLong = 6,
}

impl Answer {
    /// The event was taken, with EXCEPTION raised or without; all other answers refuse it.
    pub fn is_taken(self) -> bool {
        matches!(self, Answer::Taken | Answer::Exception)
    }
}

/// What the host sees of one event.
#[derive(Clone, Copy, PartialEq, Eq, Debug)]
pub struct Outcome {
    pub answer: Answer,
    pub byte: Option<u8>,
    pub lines: Lines,
}

impl Outcome {
    /// Nothing can be said of an impossible record, so its lines are all down.
    pub const IMPOSSIBLE: Outcome = Outcome {
        answer: Answer::ImpossibleRecord,
        byte: None,
        lines: Lines { ready: false, exception: false, direction: false },
    };
}

/// What a rule did: whether it raised EXCEPTION on a drive, and the byte it handed out.
#[derive(Clone, Copy, PartialEq, Eq, Debug)]
pub(crate) struct Done {
    pub raised: bool,
    pub byte: Option<u8>,
}

impl Done {
    /// A rule that hands out no byte.
    pub fn without_byte(raised: bool) -> Done {
        Done { raised, byte: None }
    }
}

impl Unit {
    /// One event: the refusals are tried in their order, then the event's rule runs.
    pub fn step(&mut self, tapes: &mut Tapes, event: &[u8]) -> Outcome {
        match self.accept(tapes, event) {
            Err(Answer::ImpossibleRecord) => Outcome::IMPOSSIBLE,
            Err(answer) => Outcome { answer, byte: None, lines: self.lines() },
            Ok(event) => {
                let Done { raised, byte } = self.rule(tapes, event);
                let answer = if raised { Answer::Exception } else { Answer::Taken };
                Outcome { answer, byte, lines: self.lines() }
            }
        }
    }

    /// The event if it may be taken, else the first refusal that fits.
    fn accept(&self, tapes: &Tapes, event: &[u8]) -> Result<Event, Answer> {
        if self.impossible() {
            return Err(Answer::ImpossibleRecord);
        }
        if tapes.iter().any(|tape| tape.len() as u64 > LONGEST) {
            return Err(Answer::TapeTooLong);
        }
        let event = Event::of(event).ok_or(Answer::Malformed)?;
        if self.out_of_step(event) {
            return Err(Answer::OutOfStep);
        }
        if self.wrong_cartridge(event) {
            return Err(Answer::WrongCartridge);
        }
        Ok(event)
    }

    /// Hands an accepted event to its rule.
    fn rule(&mut self, tapes: &mut Tapes, event: Event) -> Done {
        let at = self.at();
        match event {
            Event::Command(octet) => Done::without_byte(self.command(&mut tapes[at], octet)),
            Event::Give(byte) => Done::without_byte(self.give(&mut tapes[at], byte)),
            Event::Take => self.take(&tapes[at]),
            Event::OnlineRaised => Done::without_byte(self.raise_online()),
            Event::OnlineDropped => Done::without_byte(self.drop_online(&mut tapes[at])),
            Event::Reset => {
                self.reset();
                Done::without_byte(true)
            }
            Event::CartridgeIn { drive, protected } => {
                Done::without_byte(self.cartridge_in(drive, protected))
            }
            Event::CartridgeOut(drive) => Done::without_byte(self.cartridge_out(drive)),
            Event::Error(drive) => Done::without_byte(self.count_error(drive)),
            Event::Underrun(drive) => Done::without_byte(self.count_underrun(drive)),
        }
    }
}
