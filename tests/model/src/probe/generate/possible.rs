//! Records that can be, in every situation that an event can meet.

use super::parts::{around, scrap, unknown, written, Setting};
use super::{events, faults, Index};
use crate::compare::random::Random;
use crate::probe::frame::{Frame, Lent};
use crate::state::{Mode, Phase, LATE_BLOCKS, LATE_ROOM, ROOM};
use std::sync::OnceLock;

/// What decides about an event, beside tape and head.
#[derive(Clone, Copy)]
struct Situation {
    loaded: bool,
    protected: bool,
    mode: Mode,
    late: u8,
    phase: Phase,
    exception: bool,
    online: bool,
}

/// All situations of a record that can be, with the edges of each phase.
fn all() -> &'static [Situation] {
    static ALL: OnceLock<Vec<Situation>> = OnceLock::new();
    ALL.get_or_init(|| {
        let mut all = Vec::new();
        for (loaded, protected) in [(false, false), (true, false), (true, true)] {
            for mode in [Mode::Idle, Mode::Writing, Mode::Reading] {
                if mode != Mode::Idle && !loaded || mode == Mode::Writing && protected {
                    continue;
                }
                all.extend(levels(mode).map(|(late, phase, exception, online)| Situation {
                    loaded,
                    protected,
                    mode,
                    late,
                    phase,
                    exception,
                    online,
                }));
            }
        }
        all
    })
}

/// Late blocks, phase, EXCEPTION and ONLINE, in all combinations that go with a mode.
fn levels(mode: Mode) -> impl Iterator<Item = (u8, Phase, bool, bool)> {
    let lates = if mode == Mode::Writing { 0..=LATE_BLOCKS } else { 0..=0 };
    let phases = move |late| phases(mode).into_iter().map(move |phase| (late, phase));
    let both =
        |(late, phase)| (0..4).map(move |level| (late, phase, level & 1 != 0, level & 2 != 0));
    lates.flat_map(phases).flat_map(both)
}

/// The phases that go with a mode.
fn phases(mode: Mode) -> Vec<Phase> {
    let mut phases = vec![Phase::Rest];
    phases.extend((1..=6).map(Phase::Status));
    match mode {
        Mode::Idle => {}
        Mode::Writing => phases.extend([1, 510, 511].map(Phase::Taking)),
        Mode::Reading => phases.extend([1, 510, 511].map(Phase::Giving)),
    }
    phases
}

/// Every event in every situation, with tapes and heads near an edge.
pub fn situations(random: &mut Random, index: &mut Index, frames: &mut Vec<Frame>) {
    let situation = index.of(all());
    let event = index.of(events::well_formed());
    let mut setting = Setting::new(random);
    setting.unit.online = situation.online;
    setting.unit.phase = situation.phase;
    let drive = setting.drive();
    drive.loaded = situation.loaded;
    drive.protected = situation.protected;
    drive.mode = situation.mode;
    drive.late = situation.late;
    drive.exception = situation.exception;
    lend_any(random, &mut setting);
    frames.push(setting.with(&event));
}

/// A tape for the selected drive, and its head near what matters there.
pub fn lend_any(random: &mut Random, setting: &mut Setting) {
    let length = match random.among(0..4) {
        0 => random.among(0..4),
        1 => random.pick(&[512, 513, 514, 1026, 1027, 1540, 1541, 1542]),
        _ => random.among(0..3000),
    };
    let late = random.pick(&[LATE_ROOM - 1, LATE_ROOM, LATE_ROOM + 1, 1026, 1027, 1028]);
    let back = random.pick(&[0, 1, late, late, ROOM - 1, ROOM, ROOM + 1, ROOM + 513]);
    let head = match random.among(0..4) {
        0 => 0,
        1 => random.among(0..length + 3) as u64,
        _ => (length as u64).saturating_sub(back),
    };
    let (bad, next) = (unknown(random), unknown(random));
    let kinds = [random.pick(&[0, 1, 1, 2, bad]), random.pick(&[0, 1, 2, next])];
    setting.drive().head = head;
    setting.lend(match random.among(0..6) {
        0 => written(random, length),
        1 => Lent::blank(length),
        _ => around(random, length, head, kinds),
    });
}

/// A record that can be, in any phase, more often than not at work.
pub fn at_work(random: &mut Random) -> Setting {
    let mut setting = Setting::new(random);
    let mode = random.pick(&[Mode::Idle, Mode::Writing, Mode::Writing, Mode::Reading]);
    if random.chance(800) {
        setting.go(mode);
    }
    let part = random.pick(&[1, 2, 255, 256, 510, 511, 511]);
    setting.unit.phase = match (setting.drive().mode, random.among(0..4)) {
        (_, 0) => Phase::Status(random.among(1..7) as u64),
        (Mode::Writing, 1 | 2) => Phase::Taking(part),
        (Mode::Reading, 1 | 2) => Phase::Giving(part),
        _ => Phase::Rest,
    };
    lend_any(random, &mut setting);
    setting
}

/// Records of every kind, now and then one that cannot be, with any event and any tapes.
pub fn anything(random: &mut Random, _: &mut Index, frames: &mut Vec<Frame>) {
    let mut setting = at_work(random);
    if random.chance(200) {
        let other = random.among(0..4);
        setting.tapes[other] = scrap(random);
    }
    if random.chance(30) {
        faults::any(random, &mut setting);
    }
    let event = events::any(random);
    frames.push(setting.with(&event));
}
