//! Phases at every place, those that cannot be among them.

use super::parts::{around, unknown, Act, Setting};
use super::Index;
use crate::commands::READ_STATUS;
use crate::compare::random::Random;
use crate::probe::frame::Frame;
use crate::state::{Mode, Phase, ROOM};

/// Events that meet a phase; the cartridge pulled is drive 0's, which is selected or not.
const EVENTS: [&[u8]; 9] = [
    &[0x02, 0x3C],
    &[0x03],
    &[0x01, READ_STATUS],
    &[0x04],
    &[0x05],
    &[0x06],
    &[0x08, 0x00],
    &[0x0A, 0x01],
    &[0x03, 0x00],
];

/// A small number, or one that is small in its low bytes only.
pub fn number(index: &mut Index, small: usize) -> u64 {
    const HUGE: [u64; 8] = [
        512 + 256,
        65_537,
        1 << 32,
        (1 << 32) + 3,
        (1 << 32) + 511,
        (1 << 56) + 1,
        u64::MAX - 1,
        u64::MAX,
    ];
    let place = index.below(small + HUGE.len());
    place.checked_sub(small).map_or(place as u64, |place| HUGE[place])
}

/// Every place in a block, given or taken, with room and without.
pub fn places(random: &mut Random, index: &mut Index, frames: &mut Vec<Frame>) {
    let n = number(index, 514);
    let (mode, phase) =
        index.of(&[(Mode::Writing, Phase::Taking(n)), (Mode::Reading, Phase::Giving(n))]);
    let event = index.of(&EVENTS);
    let exception = index.of(&[false, true]);
    let head = random.pick(&[0, 1, 513]);
    let late = random.pick(&[513, 514, 515, 1026, 1027, 1028]);
    let rest = random.pick(&[511, 512, late, late, ROOM - 1, ROOM, ROOM + 513]);
    let (bad, next) = (unknown(random), unknown(random));
    let kinds = [random.pick(&[1, 1, 1, 1, 0, 2, bad]), random.pick(&[0, 1, 2, next])];
    let mut setting = Setting::new(random);
    setting.ready(Act(mode, phase, event), head);
    setting.drive().exception = exception;
    setting.lend(around(random, (head + rest) as usize, head, kinds));
    frames.push(setting.with(event));
}

/// Every number of octets outstanding, whatever the mode and the cartridge.
pub fn outstanding(random: &mut Random, index: &mut Index, frames: &mut Vec<Frame>) {
    let k = number(index, 9);
    let event = index.of(&EVENTS);
    let (mode, loaded) = index.of(&[
        (Mode::Idle, false),
        (Mode::Idle, true),
        (Mode::Writing, true),
        (Mode::Reading, true),
    ]);
    let exception = index.of(&[false, true]);
    let mut setting = Setting::new(random);
    setting.ready(Act(mode, Phase::Status(k), event), 0);
    setting.drive().exception = exception;
    setting.drive().loaded = loaded;
    setting.unit.online = random.chance(500);
    frames.push(setting.with(event));
}
