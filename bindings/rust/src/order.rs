//! The orders that the unit knows.

/// An order, numbered by its command octet.
#[derive(Clone, Copy, Debug, PartialEq, Eq)]
pub enum Order {
    /// Selects drive 0.
    Select0 = 0x01,
    /// Selects drive 1.
    Select1 = 0x02,
    /// Selects drive 2.
    Select2 = 0x04,
    /// Selects drive 3.
    Select3 = 0x08,
    /// Back to the beginning of the tape.
    Bot = 0x21,
    /// Sets every byte of the tape to 0.
    Erase = 0x22,
    /// Back to the beginning of the tape.
    Initialization = 0x24,
    /// The bytes given from now on are recorded, block by block; past early warning two blocks at most.
    Write = 0x40,
    /// Records a file mark.
    WriteFileMark = 0x60,
    /// The bytes taken from now on are those of the tape.
    Read = 0x80,
    /// Passes all blocks up to the next file mark.
    ReadFileMark = 0xA0,
    /// Makes the six octets of the report, and clears EXCEPTION.
    ReadStatus = 0xC0,
}
