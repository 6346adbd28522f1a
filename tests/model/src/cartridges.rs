//! Cartridges put in and pulled, and the two counts.

use crate::state::{Phase, Unit};

impl Unit {
    /// A cartridge put in an empty drive; what the drive remembered before stays.
    pub(crate) fn cartridge_in(&mut self, at: usize, protected: bool) -> bool {
        let drive = &mut self.drives[at];
        drive.loaded = true;
        drive.protected = protected;
        drive.head = 0;
        false
    }

    /// A cartridge pulled: the drive stops, and CNI tells of it in the next report.
    pub(crate) fn cartridge_out(&mut self, at: usize) -> bool {
        let drive = &mut self.drives[at];
        drive.loaded = false;
        drive.protected = false;
        drive.head = 0;
        drive.latched.cni = true;
        drive.stop();
        // A report that is going out is finished all the same; a part block is not.
        if at == self.at() && !matches!(self.phase, Phase::Status(_)) {
            self.phase = Phase::Rest;
        }
        true
    }

    /// A recoverable error; the counter stops at its largest value.
    pub(crate) fn count_error(&mut self, at: usize) -> bool {
        let drive = &mut self.drives[at];
        drive.errors = drive.errors.saturating_add(1);
        false
    }

    /// An underrun; the counter stops at its largest value.
    pub(crate) fn count_underrun(&mut self, at: usize) -> bool {
        let drive = &mut self.drives[at];
        drive.underruns = drive.underruns.saturating_add(1);
        false
    }
}
