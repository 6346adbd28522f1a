//! Many bytes in one call: from every place in a block or a report, and as far as to every place.

use super::changed::{begin, change, follow, likely};
use super::late::ROOMS;
use super::parts::{around, noise, unknown, Act, Setting};
use super::phases::number;
use super::{bytes, faults, heads, late, possible, Index, Make};
use crate::compare::random::Random;
use crate::probe::board::{Bench, Model};
use crate::probe::codec;
use crate::probe::frame::{Asked, Frame, LONGEST_BUFFER};
use crate::state::{Drive, Mode, Phase};

/// What a call asks for with so many bytes.
pub fn asked(random: &mut Random, gives: bool, length: usize) -> Asked {
    let bytes = noise(random, length);
    if gives {
        Asked::Give(bytes)
    } else {
        Asked::Take(bytes)
    }
}

/// How many bytes are left of the block or of the report; where there is no such place, a few.
fn left(phase: Phase) -> usize {
    match phase {
        Phase::Rest => 512,
        Phase::Taking(n) | Phase::Giving(n) => 512u64.checked_sub(n).unwrap_or(3).max(1) as usize,
        Phase::Status(k) => k.clamp(1, 9) as usize,
    }
}

/// A length that ends inside the block or the report, at its end, past it, or some blocks on.
fn length(random: &mut Random, index: &mut Index, phase: Phase) -> usize {
    let left = left(phase);
    let (inside, next) = (random.among(0..left), random.among(2..511));
    let third = 1536 + random.among(0..9);
    let far = left + random.pick(&[511, 512, 513, 1023, 1024, 1025, third]);
    index.of(&[0, 1, inside, left - 1, left, left + 1, left + next, far, far])
}

/// A drive in a mode, its tape full of records and with so much of it from the head on.
fn at_records(random: &mut Random, mode: Mode, phase: Phase, room: usize) -> Setting {
    let head = random.pick(&[0, 1, 513]);
    let (bad, next) = (unknown(random), unknown(random));
    let kinds = [
        random.pick(&[1, 1, 1, 1, 1, 1, 0, 2, bad]),
        random.pick(&[1, 1, 1, 1, 0, 2, next]),
        random.pick(&[1, 1, 0, 2, bad]),
        random.pick(&[1, 0, 2, next]),
    ];
    let mut setting = Setting::new(random);
    setting.ready(Act(mode, phase, &[]), head);
    setting.drive().exception = random.chance(120);
    setting.drive().protected = mode == Mode::Reading && random.chance(200);
    setting.lend(around(random, head as usize + room, head, kinds));
    setting
}

/// Room from the head on for one block, for two or for three, or just not.
fn rooms() -> Vec<usize> {
    ROOMS.into_iter().chain([2566, 2567, 3080, 3081, 3594]).collect()
}

/// Every place in a block, given or taken, those that cannot be among them; now and then the call
/// is the other one.
pub fn places(random: &mut Random, index: &mut Index, frames: &mut Vec<Frame>) {
    let n = number(index, 514);
    let (mode, phase) =
        index.of(&[(Mode::Writing, Phase::Taking(n)), (Mode::Reading, Phase::Giving(n))]);
    let length = length(random, index, phase);
    let room = random.pick(&rooms());
    let room = if random.chance(400) { 3600 } else { room };
    let setting = at_records(random, mode, phase, room);
    let gives = (mode == Mode::Writing) != random.chance(60);
    frames.push(Frame::Step(setting.step(asked(random, gives, length))));
}

/// Every number of octets outstanding, and what comes after the report.
pub fn reports(random: &mut Random, index: &mut Index, frames: &mut Vec<Frame>) {
    let phase = Phase::Status(number(index, 9));
    let mode = index.of(&[Mode::Idle, Mode::Writing, Mode::Reading, Mode::Reading]);
    let loaded = index.of(&[true, true, true, false]);
    let length = length(random, index, phase);
    let room = random.pick(&rooms());
    let mut setting = at_records(random, mode, phase, room);
    setting.drive().loaded = loaded;
    let gives = random.chance(60);
    frames.push(Frame::Step(setting.step(asked(random, gives, length))));
}

/// Bytes given with all the room that there may be, for each number of late blocks.
pub fn given(random: &mut Random, index: &mut Index, frames: &mut Vec<Frame>) {
    let room = index.of(&rooms());
    let late = index.below(3) as u8;
    let part = Phase::Taking(random.among(2..511) as u64);
    let phase = index.of(&[Phase::Rest, Phase::Taking(1), part, Phase::Taking(511)]);
    let length = length(random, index, phase);
    let mut setting = at_records(random, Mode::Writing, phase, room);
    setting.drive().late = late;
    setting.drive().exception = random.chance(30);
    frames.push(Frame::Step(setting.step(asked(random, true, length))));
}

/// Bytes taken from so many blocks, behind which something else stands, or the tape ends.
pub fn taken(random: &mut Random, index: &mut Index, frames: &mut Vec<Frame>) {
    let blocks = index.below(4);
    let bad = unknown(random);
    let then = index.of(&[0x00, 0x01, 0x02, bad]);
    let rest = index.of(&[0, 1, 2, 512, 513, 514, 1100]);
    let part = Phase::Giving(random.among(2..511) as u64);
    let phase = index.of(&[Phase::Rest, Phase::Giving(1), part, Phase::Giving(511)]);
    let length = length(random, index, phase);
    let mut setting = at_records(random, Mode::Reading, phase, 0);
    let head = setting.drive().head;
    let kinds: [u8; 5] = std::array::from_fn(|at| match at {
        at if at < blocks => 0x01,
        at if at == blocks => then,
        _ => random.pick(&[0, 1, 2, 3]),
    });
    setting.lend(around(random, head as usize + 513 * blocks + rest, head, kinds));
    frames.push(Frame::Step(setting.step(asked(random, false, length))));
}

/// Every length up to that of three blocks and more, most often with room or blocks for all.
pub fn lengths(random: &mut Random, index: &mut Index, frames: &mut Vec<Frame>) {
    let length = index.below(1700);
    let n = random.among(1..512) as u64;
    let (mode, phase) = index.of(&[
        (Mode::Writing, Phase::Rest),
        (Mode::Writing, Phase::Taking(n)),
        (Mode::Reading, Phase::Rest),
        (Mode::Reading, Phase::Giving(n)),
    ]);
    let mut setting = at_records(random, mode, phase, 3600);
    if random.chance(700) {
        let head = setting.drive().head;
        (setting.drive().late, setting.drive().exception) = (0, false);
        setting.lend(around(random, 4200, head, [0x01; 4]));
    }
    frames.push(Frame::Step(setting.step(asked(random, mode == Mode::Writing, length))));
}

/// As many bytes as a frame may have, with room or blocks for all.
pub fn most(random: &mut Random, index: &mut Index, frames: &mut Vec<Frame>) {
    let length = index.of(&[4096, LONGEST_BUFFER - 1, LONGEST_BUFFER]);
    let (mode, phase) = index.of(&[
        (Mode::Writing, Phase::Rest),
        (Mode::Writing, Phase::Taking(3)),
        (Mode::Reading, Phase::Rest),
        (Mode::Reading, Phase::Giving(3)),
    ]);
    let mut setting = Setting { late: 0, ..Setting::new(random) };
    setting.ready(Act(mode, phase, &[]), 7);
    setting.lend(around(random, 70_000, 7, [0x01; 132]));
    frames.push(Frame::Step(setting.step(asked(random, mode == Mode::Writing, length))));
}

/// Calls without a byte, on records of all kinds: the lines alone are told.
pub fn nothing(random: &mut Random, index: &mut Index, frames: &mut Vec<Frame>) {
    let n = random.pick(&[0, 1, 511, 512, u64::MAX]);
    let k = random.pick(&[0, 1, 6, 7, u64::MAX]);
    let phase = index.of(&[Phase::Rest, Phase::Taking(n), Phase::Giving(n), Phase::Status(k)]);
    let mode = index.of(&[Mode::Idle, Mode::Writing, Mode::Reading]);
    let exception = index.of(&[false, true]);
    let other = random.byte();
    let selected = index.of(&[0, 1, 2, 3, 4, 255, other]);
    let gives = index.of(&[true, false]);
    let mut setting = Setting::new(random);
    setting.unit.phase = phase;
    setting.unit.selected = selected.into();
    let drive = &mut setting.unit.drives[selected.min(3) as usize];
    *drive = Drive { mode, exception, ..drive.clone() };
    frames.push(Frame::Step(setting.step(asked(random, gives, 0))));
}

/// Generators of records and tapes that serve for many bytes as well.
const OTHERS: [Make; 14] = [
    possible::situations,
    possible::anything,
    possible::anything,
    faults::one,
    faults::several,
    heads::near_the_end,
    heads::lengths,
    heads::kinds,
    heads::kinds_after,
    heads::chains,
    late::values,
    late::rooms,
    bytes::each_flaw,
    bytes::skeleton,
];

/// Any item of another generator, with bytes in place of its event.
pub fn elsewhere(random: &mut Random, index: &mut Index, frames: &mut Vec<Frame>) {
    let make = index.of(&OTHERS);
    let mut made = Vec::new();
    // Some tries, for one where a byte is given or taken.
    let gives = (0..8).find_map(|_| {
        made.clear();
        let mut item = Index::new(random.number() as usize);
        make(random, &mut item, &mut made);
        gives(&made[0])
    });
    let gives = gives.unwrap_or(random.chance(500));
    let Some(Frame::Step(mut step)) = made.pop() else { unreachable!("each of them makes steps") };
    let phase = codec::decode(&step.record).map_or(Phase::Rest, |unit| unit.phase);
    let length = length(random, index, phase);
    step.asked = asked(random, gives, length);
    frames.push(Frame::Step(step));
}

/// Whether the event of a frame gives a byte or takes one, if it does either.
fn gives(frame: &Frame) -> Option<bool> {
    let Frame::Step(step) = frame else { return None };
    match &step.asked {
        Asked::Event(event) if event.first() == Some(&0x02) => Some(true),
        Asked::Event(event) if event.first() == Some(&0x03) => Some(false),
        _ => None,
    }
}

/// Calls and events in a run.
const CALLS: usize = 8;

/// Runs on one record where bytes go in one call, with orders between them.
pub fn runs(random: &mut Random, _: &mut Index, frames: &mut Vec<Frame>) {
    let mut bench = Bench::new(Box::new(Model));
    let mut setting = begin(random);
    for _ in 0..CALLS {
        let most = random.pick(&[9, 600, 1800]);
        let length = random.among(0..most);
        let asked = match likely(random, &setting) {
            event if event.len() == 2 && event[0] == 0x02 => asked(random, true, length),
            event if event == [0x03] => asked(random, false, length),
            event => Asked::Event(event),
        };
        frames.push(follow(&mut bench, &mut setting, asked));
        change(random, &mut setting);
    }
}
