//! The bits of a report's first two octets.

/// Octet 0: another of its bits stands.
pub const ST0: u8 = 0x80;

/// Octet 0: no cartridge, now or at some time since the last report.
pub const CNI: u8 = 0x40;

/// Octet 0: the cartridge is protected.
pub const WRP: u8 = 0x10;

/// Octet 0: no room left to record, or a WRITE past early warning took its last block.
pub const EOM: u8 = 0x08;

/// Octet 0: a bad record; nothing can be read there.
pub const UDE: u8 = 0x04;

/// Octet 0, with [`UDE`]: the kind byte of the bad record is none of 00, 01, 02.
pub const BNL: u8 = 0x02;

/// Octet 0: a file mark was passed.
pub const FIL: u8 = 0x01;

/// Octet 1: another of its bits stands.
pub const ST1: u8 = 0x80;

/// Octet 1: an illegal order.
pub const ILL: u8 = 0x40;

/// Octet 1: the data ends here.
pub const NDT: u8 = 0x20;

/// Octet 1: the cartridge stands at its beginning.
pub const BOM: u8 = 0x08;

/// Octet 1: power on or RESET since the last report.
pub const POR: u8 = 0x01;
