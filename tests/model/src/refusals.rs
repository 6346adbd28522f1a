//! What is refused: records that cannot be, and events that come at the wrong time or place.

use crate::state::{Mode, Phase, Unit, BLOCK, LATE_BLOCKS, LONGEST};
use crate::Event;

impl Unit {
    /// No run of events leads to such a record.
    pub fn impossible(&self) -> bool {
        let Some(drive) = self.selected_drive() else {
            return true;
        };
        let phase = match self.phase {
            Phase::Rest => false,
            Phase::Taking(n) => !(1..BLOCK).contains(&n) || drive.mode != Mode::Writing,
            Phase::Giving(n) => !(1..BLOCK).contains(&n) || drive.mode != Mode::Reading,
            Phase::Status(k) => !(1..=6).contains(&k),
        };
        phase
            || self.drives.iter().any(|drive| {
                drive.head > LONGEST
                    || (!drive.loaded && (drive.protected || drive.mode != Mode::Idle))
                    || (drive.protected && drive.mode == Mode::Writing)
                    || drive.late > LATE_BLOCKS
                    || (drive.late > 0 && drive.mode != Mode::Writing)
            })
    }

    /// The host did not keep to the turns of the cable.
    pub(crate) fn out_of_step(&self, event: Event) -> bool {
        let drive = self.drive();
        let going = |mode| drive.mode == mode && !drive.exception;
        let rest = self.phase == Phase::Rest;
        match event {
            Event::Command(_) | Event::OnlineRaised | Event::OnlineDropped => !rest,
            Event::Give(_) => {
                !(going(Mode::Writing) && (rest || matches!(self.phase, Phase::Taking(_))))
            }
            Event::Take => match self.phase {
                Phase::Status(_) | Phase::Giving(_) => false,
                Phase::Rest => !going(Mode::Reading),
                Phase::Taking(_) => true,
            },
            _ => false,
        }
    }

    /// A cartridge put where one is, or pulled or counted on where none is.
    pub(crate) fn wrong_cartridge(&self, event: Event) -> bool {
        match event {
            Event::CartridgeIn { drive, .. } => self.drives[drive].loaded,
            Event::CartridgeOut(drive) | Event::Error(drive) | Event::Underrun(drive) => {
                !self.drives[drive].loaded
            }
            _ => false,
        }
    }
}
