//! A record as the bytes that a board keeps, and back.

use crate::state::{Drive, Latched, Mode, Phase, Unit};
use std::ops::Range;

/// Bytes of a record.
pub const SIZE: usize = 658;
/// The one form of record that there is.
pub const VERSION: u8 = 2;
/// Where the selected drive, ONLINE, the phase and its number stand.
pub const SELECTED: usize = 1;
pub const ONLINE: usize = 2;
pub const PHASE: usize = 3;
pub const NUMBER: Range<usize> = 4..12;
/// Where drive 0 begins, and the bytes of a drive.
pub const DRIVES: usize = 18;
pub const DRIVE: usize = 32;
/// Where in a drive the late blocks still allowed stand.
pub const LATE: usize = 20;
/// Where the staging block begins.
pub const STAGING: usize = 146;

/// Why bytes are no record.
#[derive(Clone, Copy, PartialEq, Eq, PartialOrd, Ord, Debug)]
pub enum Flaw {
    Length,
    Version,
    Bool,
    Phase,
    NumberAtRest,
    Mode,
    Unused,
}

/// The bytes of a record, possible or not.
pub fn encode(unit: &Unit) -> Vec<u8> {
    let mut bytes = Vec::with_capacity(SIZE);
    let selected = u8::try_from(unit.selected).expect("the number of a drive has one byte");
    bytes.extend([VERSION, selected, unit.online as u8]);
    let (tag, number) = match unit.phase {
        Phase::Rest => (0, 0),
        Phase::Taking(n) => (1, n),
        Phase::Giving(n) => (2, n),
        Phase::Status(k) => (3, k),
    };
    bytes.push(tag);
    bytes.extend(number.to_le_bytes());
    bytes.extend(unit.octets);
    unit.drives.iter().for_each(|drive| encode_drive(drive, &mut bytes));
    bytes.extend(unit.staging);
    bytes
}

fn encode_drive(drive: &Drive, bytes: &mut Vec<u8>) {
    bytes.extend(drive.head.to_le_bytes());
    bytes.extend([0; 4]);
    bytes.extend(drive.errors.to_le_bytes());
    bytes.extend(drive.underruns.to_le_bytes());
    let mode = match drive.mode {
        Mode::Idle => 0,
        Mode::Writing => 1,
        Mode::Reading => 2,
    };
    let [loaded, protected, exception] =
        [drive.loaded, drive.protected, drive.exception].map(|bit| bit as u8);
    bytes.extend([loaded, protected, 0, mode, drive.late, exception]);
    let Latched { cni, eom, ude, bnl, fil, ill, ndt, por } = drive.latched;
    bytes.extend([cni, eom, ude, bnl, fil, ill, ndt, por].map(|bit| bit as u8));
    bytes.extend([0; 2]);
}

/// The record that the bytes are, if they are one.
pub fn decode(bytes: &[u8]) -> Result<Unit, Flaw> {
    if bytes.len() != SIZE {
        return Err(Flaw::Length);
    }
    let mut from = Cursor(bytes);
    if from.take() != [VERSION] {
        return Err(Flaw::Version);
    }
    let [selected] = from.take();
    let selected = selected.into();
    let online = from.bool()?;
    let phase = from.phase()?;
    let octets = from.take();
    let mut drives = std::array::from_fn(|_| Drive::fresh());
    for drive in &mut drives {
        *drive = from.drive()?;
    }
    Ok(Unit { selected, online, phase, staging: from.take(), octets, drives })
}

/// What is left of the bytes; their number was looked at before.
struct Cursor<'a>(&'a [u8]);

impl Cursor<'_> {
    fn take<const N: usize>(&mut self) -> [u8; N] {
        let (taken, left) = self.0.split_first_chunk().expect("the length is that of a record");
        self.0 = left;
        *taken
    }

    fn number(&mut self) -> u64 {
        u64::from_le_bytes(self.take())
    }

    fn counter(&mut self) -> u16 {
        u16::from_le_bytes(self.take())
    }

    /// Room that no field has: its bytes are 0.
    fn unused<const N: usize>(&mut self) -> Result<(), Flaw> {
        if self.take() == [0; N] {
            Ok(())
        } else {
            Err(Flaw::Unused)
        }
    }

    fn bool(&mut self) -> Result<bool, Flaw> {
        match self.take() {
            [0] => Ok(false),
            [1] => Ok(true),
            [_] => Err(Flaw::Bool),
        }
    }

    fn phase(&mut self) -> Result<Phase, Flaw> {
        let [tag] = self.take();
        let number = self.number();
        match (tag, number) {
            (0, 0) => Ok(Phase::Rest),
            (0, _) => Err(Flaw::NumberAtRest),
            (1, n) => Ok(Phase::Taking(n)),
            (2, n) => Ok(Phase::Giving(n)),
            (3, k) => Ok(Phase::Status(k)),
            _ => Err(Flaw::Phase),
        }
    }

    fn mode(&mut self) -> Result<Mode, Flaw> {
        match self.take() {
            [0] => Ok(Mode::Idle),
            [1] => Ok(Mode::Writing),
            [2] => Ok(Mode::Reading),
            [_] => Err(Flaw::Mode),
        }
    }

    fn latched(&mut self) -> Result<Latched, Flaw> {
        let (cni, eom) = (self.bool()?, self.bool()?);
        let (ude, bnl) = (self.bool()?, self.bool()?);
        let (fil, ill) = (self.bool()?, self.bool()?);
        let (ndt, por) = (self.bool()?, self.bool()?);
        Ok(Latched { cni, eom, ude, bnl, fil, ill, ndt, por })
    }

    fn drive(&mut self) -> Result<Drive, Flaw> {
        let head = self.number();
        self.unused::<4>()?;
        let (errors, underruns) = (self.counter(), self.counter());
        let (loaded, protected) = (self.bool()?, self.bool()?);
        self.unused::<1>()?;
        let mode = self.mode()?;
        let [late] = self.take();
        let exception = self.bool()?;
        let latched = self.latched()?;
        self.unused::<2>()?;
        Ok(Drive { loaded, protected, head, mode, late, exception, latched, errors, underruns })
    }
}

/// What stands at an offset of a record, in words.
pub fn field(offset: usize) -> String {
    if offset >= SIZE {
        return "past the record".into();
    }
    if offset >= STAGING {
        return format!("staging byte {}", offset - STAGING);
    }
    if offset >= DRIVES {
        let (drive, at) = ((offset - DRIVES) / DRIVE, (offset - DRIVES) % DRIVE);
        return format!("drive {drive} {}", drive_field(at));
    }
    match offset {
        0 => "version".into(),
        SELECTED => "selected".into(),
        ONLINE => "ONLINE".into(),
        PHASE => "phase".into(),
        4..=11 => format!("number of the phase, byte {}", offset - NUMBER.start),
        _ => format!("octet {}", offset - NUMBER.end),
    }
}

fn drive_field(at: usize) -> String {
    let bits = ["CNI", "EOM", "UDE", "BNL", "FIL", "ILL", "NDT", "POR"];
    match at {
        0..=7 => format!("head byte {at}"),
        12 | 13 => format!("errors byte {}", at - 12),
        14 | 15 => format!("underruns byte {}", at - 14),
        16 => "loaded".into(),
        17 => "protected".into(),
        19 => "mode".into(),
        LATE => "late blocks allowed".into(),
        21 => "EXCEPTION".into(),
        22..=29 => bits[at - 22].into(),
        _ => "unused".into(),
    }
}

/// These offsets of a drive, in each of the four.
pub fn in_drives(places: &[usize]) -> impl Iterator<Item = usize> + '_ {
    (0..4).flat_map(move |drive| places.iter().map(move |at| DRIVES + drive * DRIVE + at))
}

/// Offsets of all bytes that are 0 or 1.
pub fn bools() -> Vec<usize> {
    let of_drives = in_drives(&[16, 17, 21, 22, 23, 24, 25, 26, 27, 28, 29]);
    std::iter::once(ONLINE).chain(of_drives).collect()
}

/// Offsets of the four modes.
pub fn modes() -> Vec<usize> {
    in_drives(&[19]).collect()
}

/// Offsets of all bytes that no field has.
pub fn unused() -> Vec<usize> {
    in_drives(&[8, 9, 10, 11, 18, 30, 31]).collect()
}
