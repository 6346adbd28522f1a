//! Tapes of the longest length and beyond; each costs milliseconds, so they are few.

use super::many::asked;
use super::parts::{acts, around, Act, Setting};
use super::{bytes, events, faults, Index};
use crate::compare::random::Random;
use crate::probe::frame::{Asked, Frame, Lent, LONGEST_LENT};
use crate::state::{Mode, Phase, LONGEST};

/// A tape that no unit may be lent.
fn too_long(random: &mut Random) -> Lent {
    let longest = LONGEST_LENT as usize;
    let length = random.pick(&[LONGEST as usize + 1, LONGEST as usize + 2, longest]);
    around(random, length, LONGEST - 600, [0x01, 0x02])
}

/// A call on a record that is one, one that cannot be, or none.
fn with_record(random: &mut Random, which: usize, mut setting: Setting, asked: Asked) -> Frame {
    if which == 1 {
        faults::any(random, &mut setting);
    }
    let mut frame = Frame::Step(setting.step(asked));
    if which == 2 {
        bytes::spoil(random, &mut frame);
    }
    frame
}

/// What is wrong with the record, the tapes and the event, in all combinations.
pub fn refusals(random: &mut Random, index: &mut Index, frames: &mut Vec<Frame>) {
    let record = index.below(3);
    let place = index.below(5);
    let event = index.of(events::forms());
    let mut setting = Setting::new(random);
    if let Some(tape) = setting.tapes.get_mut(place) {
        *tape = too_long(random);
    }
    frames.push(with_record(random, record, setting, Asked::Event(event)));
}

/// Tapes too long in each place, drives loaded or not, in records that take the event otherwise.
pub fn beyond(random: &mut Random, index: &mut Index, frames: &mut Vec<Frame>) {
    let place = index.below(4);
    let act = index.of(&acts());
    let mut setting = Setting::new(random);
    setting.ready(act, random.pick(&[0, LONGEST - 600, LONGEST]));
    setting.tapes[place] = too_long(random);
    if random.chance(200) {
        setting.tapes[random.among(0..4)] = too_long(random);
    }
    frames.push(setting.with(act.2));
}

/// All acts with the head near the end of a tape of the longest length.
pub fn exactly(random: &mut Random, index: &mut Index, frames: &mut Vec<Frame>) {
    let back = index.of(&[0, 1, 2, 512, 513, 514, 1026, 1027, 1540, 1541, 1542, 2053, 2054, 2055]);
    let act = index.of(&acts());
    let kind = index.below(4) as u8;
    let head = LONGEST - back;
    let next = random.pick(&[0, 1, 2, 3]);
    let mut setting = Setting::new(random);
    setting.ready(act, head);
    setting.lend(around(random, LONGEST as usize, head, [kind, next]));
    // Not one byte too long, wherever it is.
    if random.chance(100) {
        setting.tapes[random.among(0..4)] = Lent::blank(LONGEST as usize);
    }
    frames.push(setting.with(act.2));
}

/// Many bytes where each tape in turn is too long, or where one is as long as it may be.
pub fn many(random: &mut Random, index: &mut Index, frames: &mut Vec<Frame>) {
    let record = index.below(3);
    let place = index.below(5);
    let (mode, gives) = index.of(&[(Mode::Writing, true), (Mode::Reading, false)]);
    let length = index.of(&[0, 1, 513, 1600]);
    let head = LONGEST - random.pick(&[514, 1026, 1027, 1541, 2053, 2054, 2567]);
    let mut setting = Setting::new(random);
    setting.ready(Act(mode, Phase::Rest, &[]), head);
    match setting.tapes.get_mut(place) {
        Some(tape) => *tape = too_long(random),
        None => setting.lend(around(random, LONGEST as usize, head, [0x01; 4])),
    }
    let asked = asked(random, gives, length);
    frames.push(with_record(random, record, setting, asked));
}
