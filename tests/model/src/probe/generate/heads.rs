//! Heads at every edge of a tape, and every kind byte under them.

use super::parts::{acts, around, noise, written, Setting, READING};
use super::Index;
use crate::compare::random::Random;
use crate::probe::frame::{Frame, Lent};
use crate::state::{LONGEST, ROOM};

/// Lengths of tapes at which something begins to fit.
const LENGTHS: [usize; 19] = [
    0, 1, 2, 3, 512, 513, 514, 515, 1026, 1027, 1028, 1029, 1540, 1541, 1542, 2053, 2054, 2055,
    3000,
];

/// How far a head stands from the end of its tape.
const BACK: [u64; 22] = [
    0, 1, 2, 3, 511, 512, 513, 514, 515, 1025, 1026, 1027, 1028, 1029, 1539, 1540, 1541, 1542,
    2053, 2054, 2055, 3000,
];

/// How far a head stands above the end of its tape, or so far that it meets the last place.
const ABOVE: [u64; 10] = [1, 2, 3, 512, 513, 514, 1541, 65_536, LONGEST - 1, LONGEST];

/// A head for each distance; those above are at most at the last place there is.
fn head(index: &mut Index, length: usize) -> u64 {
    let place = index.below(BACK.len() + ABOVE.len());
    match BACK.get(place) {
        Some(back) => (length as u64).saturating_sub(*back),
        None => (length as u64 + ABOVE[place - BACK.len()]).min(LONGEST),
    }
}

/// All acts with the head at, near and above the end of tapes of many lengths.
pub fn near_the_end(random: &mut Random, index: &mut Index, frames: &mut Vec<Frame>) {
    let length = index.of(&LENGTHS);
    let head = head(index, length);
    let act = index.of(&acts());
    let kind = index.below(4) as u8;
    let next = random.pick(&[0, 1, 2, 3]);
    let mut setting = Setting::new(random);
    setting.ready(act, head);
    setting.lend(around(random, length, head, [kind, next]));
    frames.push(setting.with(act.2));
}

/// All acts on tapes of every length up to some thousands.
pub fn lengths(random: &mut Random, index: &mut Index, frames: &mut Vec<Frame>) {
    let length = index.below(3101);
    let act = index.of(&acts());
    let far = random.among(0..length + 1) as u64;
    let back = random.pick(&[far, 0, 1, 512, 513, 514, 1026, 1027, 1028, ROOM - 1, ROOM, ROOM + 1]);
    let head = (length as u64).saturating_sub(back);
    let kinds = [random.pick(&[1, 1, 1, 0, 2, 3]), random.pick(&[0, 1, 2, 3])];
    let mut setting = Setting::new(random);
    setting.ready(act, head);
    setting.lend(around(random, length, head, kinds));
    frames.push(setting.with(act.2));
}

/// Every kind byte under the head, with so much tape from there on.
pub fn kinds(random: &mut Random, index: &mut Index, frames: &mut Vec<Frame>) {
    let kind = index.below(256) as u8;
    let rest = index.of(&[1, 2, 3, 511, 512, 513, 514, 515, 1026, 1027, 1540, 1541, 1542, 2054]);
    let act = index.of(&READING);
    let far = random.among(0..1200);
    let head = random.pick(&[0, 1, 513, far]);
    let next = random.byte();
    let mut setting = Setting::new(random);
    setting.ready(act, head as u64);
    setting.drive().protected = random.chance(300);
    setting.lend(around(random, head + rest, head as u64, [kind, next]));
    frames.push(setting.with(act.2));
}

/// Every kind byte after a block, with so much tape from there on.
pub fn kinds_after(random: &mut Random, index: &mut Index, frames: &mut Vec<Frame>) {
    let kind = index.below(256) as u8;
    let rest = index.of(&[0, 1, 2, 512, 513, 514, 1028]);
    let act = index.of(&[READING[1], READING[2], READING[6]]);
    let far = random.among(0..1200);
    let head = random.pick(&[0, 1, 513, far]);
    let mut setting = Setting::new(random);
    setting.ready(act, head as u64);
    setting.lend(around(random, head + 513 + rest, head as u64, [0x01, kind]));
    frames.push(setting.with(act.2));
}

/// Tapes full of records, heads at their boundaries and between them.
pub fn chains(random: &mut Random, index: &mut Index, frames: &mut Vec<Frame>) {
    let act = index.of(&acts());
    let length = random.among(0..4200);
    let tape = match random.among(0..4) {
        // Whole blocks to the very end or just past it, with nothing that stops a search.
        0 => {
            let at = random.among(0..3);
            let mut given = noise(random, length);
            given.iter_mut().skip(at).step_by(513).for_each(|kind| *kind = 0x01);
            Lent { length: length as u32, at: 0, given }
        }
        _ => written(random, length),
    };
    let head = random.among(0..5) * 513 + random.pick(&[0, 0, 0, 1, 2]);
    let mut setting = Setting::new(random);
    setting.ready(act, head as u64);
    setting.lend(tape);
    frames.push(setting.with(act.2));
}
