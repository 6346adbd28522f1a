//! Runs of events on one record, with tapes that change between them.

use super::parts::{around, scrap, unknown, Setting};
use super::possible::lend_any;
use super::{events, Index};
use crate::commands::*;
use crate::compare::random::Random;
use crate::probe::board::{Bench, Model};
use crate::probe::codec;
use crate::probe::frame::{Asked, Frame, Lent};
use crate::probe::reply::{Stepped, Trimmed};
use crate::state::{Mode, Phase};

/// Events in a run.
const EVENTS: usize = 12;

/// Each event gets the record that the one before it left. That record is the model's: a board
/// that left another one differs there already.
pub fn runs(random: &mut Random, _: &mut Index, frames: &mut Vec<Frame>) {
    let mut bench = Bench::new(Box::new(Model));
    let mut setting = begin(random);
    for _ in 0..EVENTS {
        let event = likely(random, &setting);
        frames.push(follow(&mut bench, &mut setting, Asked::Event(event)));
        change(random, &mut setting);
    }
}

/// The frame of a call, after which record and tapes are as the model leaves them.
pub fn follow(bench: &mut Bench, setting: &mut Setting, asked: Asked) -> Frame {
    let step = setting.clone().step(asked);
    let Stepped { record, tapes, .. } = bench.step(&step);
    setting.unit = codec::decode(&record).expect("a step leaves a record");
    for (lent, tape) in setting.tapes.iter_mut().zip(tapes) {
        *lent = back(lent.length, tape);
    }
    Frame::Step(step)
}

/// A drive at work, mostly just before the end of a block.
pub fn begin(random: &mut Random) -> Setting {
    let mut setting = Setting::new(random);
    let mode = random.pick(&[Mode::Writing, Mode::Reading, Mode::Reading, Mode::Idle]);
    setting.go(mode);
    lend_any(random, &mut setting);
    let n = random.pick(&[1, 505, 508, 510, 511]);
    setting.unit.phase = match (mode, random.among(0..3)) {
        (Mode::Writing, 0 | 1) => Phase::Taking(n),
        (Mode::Reading, 0 | 1) => Phase::Giving(n),
        _ => Phase::Rest,
    };
    setting
}

/// The event that keeps a transfer going, or any.
pub fn likely(random: &mut Random, setting: &Setting) -> Vec<u8> {
    if random.chance(250) {
        return events::any(random);
    }
    let drive = &setting.unit.drives[setting.at()];
    match (setting.unit.phase, drive.mode) {
        (Phase::Status(_) | Phase::Giving(_), _) => vec![0x03],
        (Phase::Taking(_), _) => vec![0x02, random.byte()],
        _ if drive.exception => vec![0x01, READ_STATUS],
        (_, Mode::Reading) => vec![0x03],
        (_, Mode::Writing) => vec![0x02, random.byte()],
        _ => vec![0x01, random.pick(&[READ, READ, WRITE, READ_FILE_MARK, WRITE_FILE_MARK])],
    }
}

/// A tape that came back, to be lent again.
fn back(length: u32, tape: Trimmed) -> Lent {
    Lent { length, at: tape.first, given: tape.bytes }
}

/// Now and then another tape lies under the head: other kinds, cut off, or one byte changed.
pub fn change(random: &mut Random, setting: &mut Setting) {
    let head = setting.drive().head;
    let length = setting.tapes[setting.at()].length as usize;
    match random.among(0..10) {
        0 | 1 => {
            let (bad, next) = (unknown(random), unknown(random));
            let kinds = [random.pick(&[0, 1, 2, bad, bad]), random.pick(&[0, 1, 2, next])];
            setting.lend(around(random, length, head, kinds));
        }
        2 => {
            let cut = random.among(0..length + 1);
            setting.lend(around(random, cut, head, [0x01, 0x01]));
        }
        3 => {
            let longer =
                head as usize % 5000 + random.pick(&[513, 514, 1026, 1027, 1540, 1541, 2054]);
            setting.lend(around(random, longer, head, [0x01, 0x02]));
        }
        4 => setting.tapes[random.among(0..4)] = scrap(random),
        _ => {}
    }
}
