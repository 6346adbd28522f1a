//! The bytes of each event.

use crate::Order;

/// The host takes a byte of data or of the report.
pub const TAKE: [u8; 1] = [0x03];

/// ONLINE is raised.
pub const ONLINE: [u8; 1] = [0x04];

/// ONLINE is dropped.
pub const OFFLINE: [u8; 1] = [0x05];

/// RESET.
pub const RESET: [u8; 1] = [0x06];

/// An order by REQUEST.
pub const fn order(order: Order) -> [u8; 2] {
    command(order as u8)
}

/// A command octet by REQUEST, of any value; the unit finds those illegal that are no [`Order`].
pub const fn command(octet: u8) -> [u8; 2] {
    [0x01, octet]
}

/// The host gives a data byte.
pub const fn give(byte: u8) -> [u8; 2] {
    [0x02, byte]
}

/// A cartridge is put into drive 0 to 3, with its plug set or not.
pub const fn cartridge_in(drive: u8, protected: bool) -> [u8; 2] {
    [0x07, if protected { drive | 0x80 } else { drive }]
}

/// The cartridge is taken out of drive 0 to 3.
pub const fn cartridge_out(drive: u8) -> [u8; 2] {
    [0x08, drive]
}

/// A recoverable error on drive 0 to 3.
pub const fn error(drive: u8) -> [u8; 2] {
    [0x09, drive]
}

/// An underrun on drive 0 to 3.
pub const fn underrun(drive: u8) -> [u8; 2] {
    [0x0A, drive]
}
