//! Records on a tape: what stands at the head, the edge check, and recording.

use crate::state::{Drive, BLOCK};

/// Kind bytes of the records.
pub const END: u8 = 0x00;
pub const DATA: u8 = 0x01;
pub const MARK: u8 = 0x02;
/// A block with its kind byte.
pub const BLOCK_RECORD: u64 = BLOCK + 1;

/// What a head finds at its place.
#[derive(Clone, Copy, PartialEq, Eq, Debug)]
pub enum Found {
    Block,
    Mark,
    End,
    /// A kind byte that no record has.
    Unknown,
    /// No place for a record: a block past the tape's end, or a head above it.
    Bad,
}

/// Looks at the record at an offset; the tape's end is the end of data, past it all is bad.
pub fn found(tape: &[u8], head: u64) -> Found {
    let length = tape.len() as u64;
    if head > length {
        return Found::Bad;
    }
    if head == length {
        return Found::End;
    }
    match tape[head as usize] {
        END => Found::End,
        DATA if head + BLOCK_RECORD <= length => Found::Block,
        DATA => Found::Bad,
        MARK => Found::Mark,
        _ => Found::Unknown,
    }
}

impl Drive {
    /// Before a block is handed out: anything but a block ends the reading. Says if it did.
    pub(crate) fn edge_check(&mut self, tape: &[u8]) -> bool {
        let found = found(tape, self.head);
        if found == Found::Block {
            return false;
        }
        self.end_reading(found);
        true
    }

    /// Passes blocks up to the next mark, or to whatever stands in the way of it.
    pub(crate) fn read_file_mark(&mut self, tape: &[u8]) {
        while found(tape, self.head) == Found::Block {
            self.head += BLOCK_RECORD;
        }
        self.end_reading(found(tape, self.head));
    }

    /// Latches why the reading ends here; a mark is passed, all else (never a block) stays ahead.
    fn end_reading(&mut self, found: Found) {
        match found {
            Found::Mark => {
                self.latched.fil = true;
                self.head += 1;
            }
            Found::End => self.latched.ndt = true,
            Found::Unknown | Found::Bad | Found::Block => self.latch_bad(found),
        }
        self.stop();
    }

    /// Latches that no record can be read here: UDE, and BNL if an unknown kind is why.
    pub(crate) fn latch_bad(&mut self, found: Found) {
        self.latched.ude = true;
        self.latched.bnl |= found == Found::Unknown;
    }

    /// Puts a record at the head, moves past it and closes the data there. The room is the
    /// caller's to have checked.
    pub(crate) fn record(&mut self, tape: &mut [u8], record: &[u8]) {
        let start = self.head as usize;
        let end = start + record.len();
        tape[start..end].copy_from_slice(record);
        if end < tape.len() {
            tape[end] = END;
        }
        self.head = end as u64;
    }

    /// Ends the writing for want of room.
    pub(crate) fn end_of_medium(&mut self) {
        self.latched.eom = true;
        self.stop();
    }
}
