//! Boards that misread the bytes of a record.

use crate::probe::board::{Board, Model};
use crate::probe::codec::{self, DRIVE, DRIVES, LATE, NUMBER, ONLINE, PHASE, SIZE, VERSION};
use crate::{Outcome, Tapes};

/// How the bytes of a record are misread.
pub enum Misread {
    /// Fields stand elsewhere, for reading and for writing.
    Both(fn(&mut Vec<u8>)),
    /// What is no record is taken for one, or a record for another.
    In(fn(&mut Vec<u8>)),
    /// A record is taken for none.
    Refused(fn(&[u8]) -> bool),
}

use Misread::{Both, In, Refused};

pub const MISREAD: [(&str, Misread); 25] = [
    ("errors and underruns exchanged", Both(|bytes| swap(bytes, 12, 14, 2))),
    ("loaded and protected exchanged", Both(|bytes| swap(bytes, 16, 17, 1))),
    ("latched FIL and ILL exchanged", Both(|bytes| swap(bytes, 26, 27, 1))),
    ("latched UDE and BNL exchanged", Both(|bytes| swap(bytes, 24, 25, 1))),
    ("late and latched BNL exchanged", Both(|bytes| swap(bytes, LATE, 25, 1))),
    ("late stands before the mode", Both(|bytes| swap(bytes, LATE, 18, 1))),
    ("late stands behind the bits", Both(|bytes| swap(bytes, LATE, 30, 1))),
    ("late in a record is passed over", In(|bytes| late_as(bytes, |_| 0))),
    ("late above 2 is 2", In(|bytes| late_as(bytes, |late| late.min(2)))),
    ("of late the low two bits count", In(|bytes| late_as(bytes, |late| late & 3))),
    ("a record with late blocks is none", Refused(has_late)),
    ("BNL in a record is passed over", In(|bytes| bnl_at_most(bytes, 0))),
    ("BNL above 1 is 1", In(|bytes| bnl_at_most(bytes, 1))),
    ("a record with BNL is none", Refused(has_bnl)),
    ("drives 1 and 2 exchanged", Both(|bytes| exchange(bytes, DRIVES + DRIVE, DRIVES + 2 * DRIVE))),
    ("heads with the high byte first", Both(|bytes| reverse_heads(bytes))),
    ("what stands in unused room is passed over", In(|bytes| clear_unused(bytes))),
    ("a bool above 1 is 1", In(|bytes| at_most(bytes, DRIVES + 3 * DRIVE + 29, 1))),
    ("ONLINE above 1 is 1", In(|bytes| at_most(bytes, ONLINE, 1))),
    ("a version below is a record", In(|bytes| raise(bytes, 0, VERSION))),
    ("a number at Rest is passed over", In(|bytes| number_at_rest(bytes))),
    ("a phase above 3 is Status", In(|bytes| at_most(bytes, PHASE, 3))),
    ("a mode above 2 is Reading", In(|bytes| at_most(bytes, DRIVES + 19, 2))),
    ("heads have 32 bits", In(|bytes| short_heads(bytes))),
    ("a record of 659 bytes is one", In(|bytes| bytes.truncate(bytes.len() - bytes.len() / 659))),
];

/// A board that misreads records.
pub struct Misreading(pub &'static Misread);

impl Board for Misreading {
    fn step(&mut self, record: &mut Vec<u8>, tapes: &mut Tapes, event: &[u8]) -> Outcome {
        let found = record.clone();
        match self.0 {
            Both(bend) | In(bend) => bend(record),
            Refused(none) if codec::decode(record).is_ok() && none(record) => {
                return Model.step(&mut Vec::new(), tapes, event);
            }
            Refused(_) => {}
        }
        if codec::decode(record).map_or(true, |unit| unit.impossible()) {
            *record = found;
            return Model.step(record, tapes, event);
        }
        let outcome = Model.step(record, tapes, event);
        if let Both(bend) = self.0 {
            bend(record);
        }
        outcome
    }
}

/// Exchanges two fields of each drive.
fn swap(bytes: &mut [u8], one: usize, other: usize, size: usize) {
    if bytes.len() == SIZE {
        for start in (0..4).map(|drive| DRIVES + drive * DRIVE) {
            (0..size).for_each(|at| bytes.swap(start + one + at, start + other + at));
        }
    }
}

/// Exchanges two drives.
fn exchange(bytes: &mut [u8], one: usize, other: usize) {
    if bytes.len() == SIZE {
        (0..DRIVE).for_each(|at| bytes.swap(one + at, other + at));
    }
}

fn reverse_heads(bytes: &mut [u8]) {
    heads(bytes, |head| head.reverse());
}

fn clear_unused(bytes: &mut [u8]) {
    codec::unused().into_iter().for_each(|at| at_most(bytes, at, 0));
}

fn has_bnl(bytes: &[u8]) -> bool {
    codec::in_drives(&[25]).any(|at| bytes[at] == 1)
}

fn bnl_at_most(bytes: &mut [u8], most: u8) {
    codec::in_drives(&[25]).for_each(|at| at_most(bytes, at, most));
}

fn has_late(bytes: &[u8]) -> bool {
    codec::in_drives(&[LATE]).any(|at| bytes[at] > 0)
}

fn late_as(bytes: &mut [u8], bend: fn(u8) -> u8) {
    for at in codec::in_drives(&[LATE]) {
        if let Some(late) = bytes.get_mut(at) {
            *late = bend(*late);
        }
    }
}

fn short_heads(bytes: &mut [u8]) {
    heads(bytes, |head| head[4..].fill(0));
}

fn heads(bytes: &mut [u8], bend: fn(&mut [u8])) {
    for at in codec::in_drives(&[0]) {
        if let Some(head) = bytes.get_mut(at..at + 8) {
            bend(head);
        }
    }
}

fn at_most(bytes: &mut [u8], at: usize, most: u8) {
    if let Some(byte) = bytes.get_mut(at) {
        *byte = most.min(*byte);
    }
}

fn raise(bytes: &mut [u8], at: usize, least: u8) {
    if let Some(byte) = bytes.get_mut(at) {
        *byte = least.max(*byte);
    }
}

fn number_at_rest(bytes: &mut [u8]) {
    if bytes.len() == SIZE && bytes[PHASE] == 0 {
        bytes[NUMBER].fill(0);
    }
}
