//! Bytes that the host gives and takes.

use crate::answers::Done;
use crate::state::{Phase, Unit, BLOCK, LATE_ROOM, ROOM};
use crate::tape::{found, Found, BLOCK_RECORD, DATA};

impl Unit {
    /// A byte given by the host. Says if EXCEPTION was raised.
    pub(crate) fn give(&mut self, tape: &mut [u8], byte: u8) -> bool {
        let place = match self.phase {
            Phase::Taking(n) => n,
            _ => 0,
        };
        self.staging[place as usize] = byte;
        if place + 1 < BLOCK {
            self.phase = Phase::Taking(place + 1);
            return false;
        }
        self.phase = Phase::Rest;
        self.store_block(tape)
    }

    /// The staged block goes to tape if there is room for it. Says if it was the last.
    fn store_block(&mut self, tape: &mut [u8]) -> bool {
        let at = self.at();
        let drive = &mut self.drives[at];
        let length = tape.len() as u64;
        let late = drive.late > 0;
        let room = if late { LATE_ROOM } else { ROOM };
        if drive.head + room <= length {
            let mut record = [DATA; BLOCK_RECORD as usize];
            record[1..].copy_from_slice(&self.staging);
            drive.record(tape, &record);
            drive.late -= late as u8;
        }
        // The same test serves twice: no room for this block, or none for the next.
        let last = drive.head + room > length || late && drive.late == 0;
        if last {
            drive.end_of_medium();
        }
        last
    }

    /// A byte taken by the host.
    pub(crate) fn take(&mut self, tape: &[u8]) -> Done {
        match self.phase {
            Phase::Status(outstanding) => self.take_octet(outstanding),
            Phase::Giving(n) => self.take_inside(tape, n),
            _ => self.take_first(tape),
        }
    }

    /// The next octet of the report; after the last the cable rests.
    fn take_octet(&mut self, outstanding: u64) -> Done {
        self.phase = match outstanding {
            1 => Phase::Rest,
            k => Phase::Status(k - 1),
        };
        Done { raised: false, byte: Some(self.octets[6 - outstanding as usize]) }
    }

    /// The first byte of a block; the tape may have changed since the last edge check.
    fn take_first(&mut self, tape: &[u8]) -> Done {
        let at = self.at();
        if self.drives[at].edge_check(tape) {
            return Done::without_byte(true);
        }
        self.hand_out(tape, 0)
    }

    /// A later byte of a block, if the block is still whole.
    fn take_inside(&mut self, tape: &[u8], n: u64) -> Done {
        let at = self.at();
        let drive = &mut self.drives[at];
        let found = found(tape, drive.head);
        if found != Found::Block {
            drive.latch_bad(found);
            drive.stop();
            self.phase = Phase::Rest;
            return Done::without_byte(true);
        }
        self.hand_out(tape, n)
    }

    /// Byte n of the block at the head; the last one moves the head and looks at what follows.
    fn hand_out(&mut self, tape: &[u8], n: u64) -> Done {
        let at = self.at();
        let drive = &mut self.drives[at];
        let byte = Some(tape[(drive.head + 1 + n) as usize]);
        if n + 1 < BLOCK {
            self.phase = Phase::Giving(n + 1);
            return Done { raised: false, byte };
        }
        self.phase = Phase::Rest;
        drive.head += BLOCK_RECORD;
        Done { raised: drive.edge_check(tape), byte }
    }
}
