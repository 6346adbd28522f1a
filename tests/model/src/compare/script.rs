//! A trace under construction, with the model run beside it so that the next event can be chosen.

use crate::commands::*;
use crate::replay::blank_tapes;
use crate::state::{Drive, Mode, Phase, ROOM};
use crate::tape::{found, Found};
use crate::{Outcome, Tapes, Unit};

/// The events so far, and where they lead.
pub struct Script {
    pub trace: Vec<u8>,
    pub events: usize,
    pub unit: Unit,
    pub tapes: Tapes,
}

impl Default for Script {
    fn default() -> Script {
        Script::on(blank_tapes())
    }
}

/// Single events.
impl Script {
    /// A fresh unit over these tapes.
    pub fn on(tapes: Tapes) -> Script {
        Script { trace: Vec::new(), events: 0, unit: Unit::fresh(), tapes }
    }

    pub fn send(&mut self, event: &[u8]) -> Outcome {
        self.trace.extend_from_slice(event);
        self.events += 1;
        self.unit.step(&mut self.tapes, event)
    }

    /// The same event so many times.
    pub fn many(&mut self, count: usize, event: &[u8]) {
        for _ in 0..count {
            self.send(event);
        }
    }

    pub fn command(&mut self, octet: u8) -> Outcome {
        self.send(&[0x01, octet])
    }

    pub fn give(&mut self, byte: u8) -> Outcome {
        self.send(&[0x02, byte])
    }

    pub fn take(&mut self) -> Outcome {
        self.send(&[0x03])
    }

    pub fn raise(&mut self) -> Outcome {
        self.send(&[0x04])
    }

    pub fn lower(&mut self) -> Outcome {
        self.send(&[0x05])
    }

    pub fn reset(&mut self) -> Outcome {
        self.send(&[0x06])
    }

    pub fn insert(&mut self, drive: u8, protected: bool) -> Outcome {
        self.send(&[0x07, drive | if protected { 0x80 } else { 0 }])
    }

    pub fn pull(&mut self, drive: u8) -> Outcome {
        self.send(&[0x08, drive])
    }

    pub fn error(&mut self, drive: u8) -> Outcome {
        self.send(&[0x09, drive])
    }

    pub fn underrun(&mut self, drive: u8) -> Outcome {
        self.send(&[0x0A, drive])
    }
}

/// Moves of several events.
impl Script {
    /// The selected drive.
    pub fn drive(&self) -> &Drive {
        &self.unit.drives[self.unit.selected as usize]
    }

    /// READ STATUS and the six octets.
    pub fn report(&mut self) -> [u8; 6] {
        self.command(READ_STATUS);
        std::array::from_fn(|_| self.take().byte.unwrap_or(0))
    }

    /// Gives or takes what is outstanding, so that the cable rests.
    pub fn settle(&mut self) {
        while self.unit.phase != Phase::Rest {
            match self.unit.phase {
                Phase::Taking(_) => self.give(0xE5),
                _ => self.take(),
            };
        }
    }

    /// Rest, no EXCEPTION, mode Idle, ONLINE up.
    pub fn calm(&mut self) {
        self.settle();
        if self.drive().mode != Mode::Idle {
            self.lower();
        }
        self.raise();
        if self.drive().exception {
            self.report();
        }
    }

    /// Selects a drive from any state, ONLINE up and its EXCEPTION reported.
    pub fn choose(&mut self, drive: u8) {
        self.calm();
        self.command(SELECT[drive as usize]);
        self.calm();
    }

    /// Puts this cartridge in, whatever was there.
    pub fn change(&mut self, drive: u8, protected: bool) -> Outcome {
        if self.unit.drives[drive as usize].loaded {
            self.pull(drive);
        }
        self.insert(drive, protected)
    }

    /// 512 bytes that count up from the first.
    pub fn give_block(&mut self, first: u8) -> Outcome {
        for n in 0..511u16 {
            self.give(first.wrapping_add(n as u8));
        }
        self.give(first.wrapping_add(0xFF))
    }

    /// 512 bytes taken.
    pub fn take_block(&mut self) -> Outcome {
        self.many(511, &[0x03]);
        self.take()
    }

    /// A block recorded from Idle or Writing.
    pub fn record_block(&mut self, first: u8) -> Outcome {
        if self.drive().mode != Mode::Writing {
            self.command(WRITE);
        }
        self.give_block(first)
    }

    /// Records blocks while they fit, then marks, until the head is here.
    pub fn advance(&mut self, head: u64) {
        let length = self.tapes[self.unit.selected as usize].len() as u64;
        while self.drive().head < head {
            let place = self.drive().head;
            if place + 513 <= head && place + ROOM <= length {
                self.record_block(place as u8);
            } else {
                self.command(WRITE_FILE_MARK);
            }
            self.calm_here();
        }
    }

    /// Mode Idle and no EXCEPTION, with head and tape as they are.
    pub fn calm_here(&mut self) {
        if self.drive().mode != Mode::Idle {
            // An order out of sequence raises EXCEPTION, and so no mark is made of the fall.
            self.command(ERASE);
            self.lower();
            self.raise();
        }
        if self.drive().exception {
            self.report();
        }
    }

    /// Selects a drive, rewinds it and takes all that is on its tape, through every mark.
    pub fn read_back(&mut self, drive: u8) {
        self.choose(drive);
        if !self.drive().loaded {
            self.insert(drive, false);
        }
        self.command(BOT);
        self.read_on();
    }

    /// Takes all from the head to the end of data.
    pub fn read_on(&mut self) {
        let at = self.unit.selected as usize;
        loop {
            let ahead = found(&self.tapes[at], self.drive().head);
            let ends = !matches!(ahead, Found::Block | Found::Mark);
            self.command(READ);
            while self.drive().mode == Mode::Reading {
                self.take();
            }
            self.report();
            if ends {
                return;
            }
        }
    }
}
