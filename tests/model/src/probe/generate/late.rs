//! Late blocks: every number of them, all the room that they may find, and WRITEs in a row.

use super::changed::follow;
use super::parts::{around, Act, Setting};
use super::{events, Index};
use crate::commands::*;
use crate::compare::random::Random;
use crate::probe::board::{Bench, Model};
use crate::probe::frame::{Asked, Frame};
use crate::state::{Drive, Mode, Phase, LATE_ROOM};

/// Room from the head on at which something begins to fit, or just does not.
pub const ROOMS: [usize; 24] = [
    0, 1, 2, 512, 513, 514, 515, 516, 1025, 1026, 1027, 1028, 1029, 1538, 1539, 1540, 1541, 1542,
    1543, 2053, 2054, 2055, 2568, 4000,
];

/// What meets a WRITE, late or not, or begins one.
const ACTS: [Act; 14] = [
    Act(Mode::Idle, Phase::Rest, &[0x01, WRITE]),
    Act(Mode::Writing, Phase::Taking(511), &[0x02, 0xC3]),
    Act(Mode::Writing, Phase::Taking(510), &[0x02, 0x3C]),
    Act(Mode::Writing, Phase::Rest, &[0x02, 0x99]),
    Act(Mode::Writing, Phase::Rest, &[0x01, WRITE]),
    Act(Mode::Writing, Phase::Rest, &[0x01, WRITE_FILE_MARK]),
    Act(Mode::Writing, Phase::Rest, &[0x01, READ_STATUS]),
    Act(Mode::Writing, Phase::Status(1), &[0x03]),
    Act(Mode::Writing, Phase::Rest, &[0x05]),
    Act(Mode::Writing, Phase::Taking(100), &[0x06]),
    Act(Mode::Writing, Phase::Taking(511), &[0x08, 0x00]),
    Act(Mode::Writing, Phase::Rest, &[0x08, 0x02]),
    Act(Mode::Writing, Phase::Rest, &[0x0A, 0x00]),
    Act(Mode::Writing, Phase::Taking(1), &[0x09, 0x01]),
];

/// Every number of late blocks in every mode of every drive, selected or not.
pub fn values(random: &mut Random, index: &mut Index, frames: &mut Vec<Frame>) {
    let late = index.below(256) as u8;
    let mode = index.of(&[Mode::Idle, Mode::Writing, Mode::Reading]);
    let at = index.below(4);
    let own = index.of(&[true, false]);
    let mut setting = Setting::new(random);
    setting.unit.selected = if own { at } else { (at + random.among(1..4)) % 4 } as u64;
    setting.unit.online = random.chance(700);
    if own && mode == Mode::Writing && random.chance(500) {
        setting.unit.phase = Phase::Taking(random.pick(&[1, 511]));
    }
    let drive = &mut setting.unit.drives[at];
    let open = Drive { loaded: true, protected: false, ..drive.clone() };
    *drive = Drive { mode, late, ..open };
    let head = drive.head as usize % 5000;
    drive.head = head as u64;
    let room = random.pick(&ROOMS);
    setting.tapes[at] = around(random, head + room, head as u64, [0x01, 0x02]);
    let event = &events::forms()[random.among(0..events::forms().len())];
    frames.push(setting.with(event));
}

/// All that meets a WRITE, with all the room that there may be, for each number of late blocks.
pub fn rooms(random: &mut Random, index: &mut Index, frames: &mut Vec<Frame>) {
    let room = index.of(&ROOMS);
    let act = index.of(&ACTS);
    let late = index.below(3) as u8;
    let exception = index.of(&[false, false, true]);
    let far = random.among(0..4000);
    let head = index.of(&[0, 1, 513, far]);
    let kinds = [random.pick(&[0, 1, 2, 3]), random.pick(&[0, 1, 2, 3])];
    let mut setting = Setting { late, ..Setting::new(random) };
    setting.ready(act, head as u64);
    setting.drive().exception = exception;
    setting.lend(around(random, head + room, head as u64, kinds));
    frames.push(setting.with(act.2));
}

/// Events of one row of WRITEs.
const EVENTS: usize = 12;

/// WRITEs one after another, of each block the last byte alone, on a tape that now and then is
/// lent longer or shorter.
pub fn writes(random: &mut Random, _: &mut Index, frames: &mut Vec<Frame>) {
    let mut bench = Bench::new(Box::new(Model));
    let mut setting = Setting::new(random);
    let head = random.among(0..2000);
    setting.ready(Act(Mode::Idle, Phase::Rest, &[]), head as u64);
    lend(random, &mut setting);
    for _ in 0..EVENTS {
        let event = next(random, &mut setting);
        frames.push(follow(&mut bench, &mut setting, Asked::Event(event)));
        if random.chance(100) || is_full(&mut setting) {
            lend(random, &mut setting);
        }
    }
}

/// No WRITE would be taken here, and that was reported.
fn is_full(setting: &mut Setting) -> bool {
    let length = setting.tapes[setting.at()].length;
    let drive = setting.drive();
    drive.head + LATE_ROOM > length.into() && !drive.exception
}

/// A tape with so much room from the head on.
fn lend(random: &mut Random, setting: &mut Setting) {
    let head = setting.drive().head;
    let room = random.pick(&[513, 514, 1026, 1027, 1539, 1540, 1540, 1540, 1541, 2054, 3000]);
    setting.lend(around(random, head as usize + room, head, [0x00, 0x00]));
}

/// What a rig sends next; the octets of a report and all but the last byte of a block are skipped.
fn next(random: &mut Random, setting: &mut Setting) -> Vec<u8> {
    setting.unit.phase = Phase::Rest;
    let Drive { mode, exception, .. } = *setting.drive();
    if random.chance(100) {
        let own = setting.at() as u8;
        return random
            .pick(&[[0x01, READ_STATUS], [0x01, ERASE], [0x0A, own], [0x01, WRITE_FILE_MARK]])
            .to_vec();
    }
    match mode {
        _ if exception => vec![0x01, READ_STATUS],
        Mode::Writing => {
            setting.unit.phase = Phase::Taking(511);
            vec![0x02, random.byte()]
        }
        _ => vec![0x01, WRITE],
    }
}
