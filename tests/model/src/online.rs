//! The ONLINE level.

use crate::state::{Drive, Mode, Unit};
use crate::tape::MARK;

impl Unit {
    /// ONLINE raised: the level, and nothing else.
    pub(crate) fn raise_online(&mut self) -> bool {
        self.online = true;
        false
    }

    /// ONLINE dropped, on the selected drive alone. Says if EXCEPTION was raised.
    pub(crate) fn drop_online(&mut self, tape: &mut [u8]) -> bool {
        // A level that is low already does not fall.
        if !self.online {
            return false;
        }
        self.online = false;
        let at = self.at();
        self.drives[at].close(tape)
    }
}

impl Drive {
    /// What the falling level does to the selected drive. Says if EXCEPTION was raised.
    fn close(&mut self, tape: &mut [u8]) -> bool {
        if self.exception {
            self.finish();
            return false;
        }
        if !self.loaded {
            return false;
        }
        if self.mode == Mode::Writing {
            if self.head + 1 > tape.len() as u64 {
                self.end_of_medium();
                return true;
            }
            self.record(tape, &[MARK]);
        }
        self.finish();
        self.head = 0;
        false
    }
}
