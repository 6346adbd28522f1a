//! The lines READY, EXCEPTION and DIRECTION.

use crate::state::{Mode, Phase, Unit};

/// The three lines that the drives hold.
#[derive(Clone, Copy, PartialEq, Eq, Debug, Default)]
pub struct Lines {
    pub ready: bool,
    pub exception: bool,
    pub direction: bool,
}

impl Unit {
    /// The lines of the record as it stands, also of one that cannot be; there a number above 3
    /// selects drive 3.
    pub fn lines(&self) -> Lines {
        let drive = &self.drives[self.selected.min(3) as usize];
        let status = matches!(self.phase, Phase::Status(_));
        Lines {
            ready: !drive.exception && (status || self.phase == Phase::Rest),
            exception: drive.exception,
            direction: status || (drive.mode == Mode::Reading && !drive.exception),
        }
    }
}
