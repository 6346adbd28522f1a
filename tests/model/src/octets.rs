//! The six status octets.

use crate::state::{Drive, Latched};

/// Bits of octet 0; USL (20) never stands.
const ST0: u8 = 0x80;
const CNI: u8 = 0x40;
const WRP: u8 = 0x10;
const EOM: u8 = 0x08;
const UDE: u8 = 0x04;
const BNL: u8 = 0x02;
const FIL: u8 = 0x01;
/// Bits of octet 1; MBD (10), BPE (04) and ERM (02) never stand.
const ST1: u8 = 0x80;
const ILL: u8 = 0x40;
const NDT: u8 = 0x20;
const BOM: u8 = 0x08;
const POR: u8 = 0x01;

impl Drive {
    /// Makes the report, then forgets what it told.
    pub(crate) fn report(&mut self) -> [u8; 6] {
        let [e1, e0] = self.errors.to_be_bytes();
        let [u1, u0] = self.underruns.to_be_bytes();
        let octets = [self.octet_0(), self.octet_1(), e1, e0, u1, u0];
        self.latched = Latched::default();
        self.errors = 0;
        self.underruns = 0;
        self.exception = false;
        octets
    }

    /// Cartridge, plug, medium and data.
    fn octet_0(&self) -> u8 {
        let latched = &self.latched;
        summed(
            ST0,
            [
                (latched.cni || !self.loaded, CNI),
                (self.protected, WRP),
                (latched.eom, EOM),
                (latched.ude, UDE),
                (latched.bnl, BNL),
                (latched.fil, FIL),
            ],
        )
    }

    /// Commands, position and power.
    fn octet_1(&self) -> u8 {
        let latched = &self.latched;
        summed(
            ST1,
            [
                (latched.ill, ILL),
                (latched.ndt, NDT),
                (self.loaded && self.head == 0, BOM),
                (latched.por, POR),
            ],
        )
    }
}

/// The bits that stand, with the top bit on if there is any.
fn summed<const N: usize>(top: u8, bits: [(bool, u8); N]) -> u8 {
    let sum = bits.iter().filter(|(up, _)| *up).fold(0, |sum, (_, bit)| sum | bit);
    if sum == 0 {
        0
    } else {
        sum | top
    }
}
