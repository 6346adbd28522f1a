//! Makes a frame that differs as plain as it can be.

use crate::compare::program::{Feed, Program};
use crate::probe::board::{Bench, Model};
use crate::probe::codec;
use crate::probe::frame::{Frame, Step};
use crate::probe::reply::next;
use crate::probe::runner::{written, Difference};
use crate::state::{Drive, Latched, Unit};

/// The plainest form found, or nothing where the frame alone does not differ.
pub fn shrunk(program: &dyn Program, frame: &Frame) -> Option<Difference> {
    let mut best = difference(program, frame)?;
    // What one change makes possible another may use, so they are tried until none helps.
    for _ in 0..4 {
        let mut helped = false;
        for plainer in plainer(&best.frame) {
            if let Some(found) = difference(program, &plainer) {
                helped = true;
                best = found;
                break;
            }
        }
        helped |= shorten(program, &mut best);
        helped |= fewer(program, &mut best);
        if !helped {
            break;
        }
    }
    Some(best)
}

/// The difference that a frame alone makes.
fn difference(program: &dyn Program, frame: &Frame) -> Option<Difference> {
    let mut model = Vec::new();
    Bench::new(Box::new(Model)).reply(frame).write(&mut model);
    let own = next(&mut &model[..]).expect("the model replies").to_vec();
    let reply = program.run(&written(std::slice::from_ref(frame)), Feed::Whole);
    if reply.as_ref() == Ok(&model) {
        return None;
    }
    let reply = reply.and_then(|bytes| next(&mut &bytes[..]).map(<[u8]>::to_vec));
    Some(Difference { number: 0, frame: frame.clone(), reply, model: own })
}

/// Forms of a frame with something taken away, the boldest first.
fn plainer(frame: &Frame) -> Vec<Frame> {
    let Frame::Step(step) = frame else {
        return Vec::new();
    };
    let records = codec::decode(&step.record).map(|unit| plainer_units(&unit)).unwrap_or_default();
    let mut steps: Vec<Step> = Vec::new();
    for unit in &records {
        let mut plain = Step { record: codec::encode(unit), ..step.clone() };
        for at in (0..4).filter(|&at| at as u64 != unit.selected) {
            plain.tapes[at] = Default::default();
        }
        steps.push(plain);
    }
    steps.extend(records.iter().map(|unit| Step { record: codec::encode(unit), ..step.clone() }));
    for at in 0..4 {
        let mut plain = step.clone();
        plain.tapes[at] = Default::default();
        steps.push(plain);
    }
    let mut alike = step.clone();
    if let Some(bytes) = alike.asked.many() {
        bytes.fill(0x5A);
    }
    steps.push(alike);
    steps.retain(|plain| plain != step);
    steps.into_iter().map(Frame::Step).collect()
}

/// A record with all that is seldom looked at cleared, or parts of it.
fn plainer_units(unit: &Unit) -> Vec<Unit> {
    let quiet = |drive: &Drive| Drive {
        latched: Latched::default(),
        errors: 0,
        underruns: 0,
        ..drive.clone()
    };
    let blank = Drive { exception: false, ..quiet(&Drive::fresh()) };
    let mut bytes = unit.clone();
    (bytes.staging, bytes.octets) = ([0; 512], [0; 6]);
    let mut silent = bytes.clone();
    silent.drives = silent.drives.each_ref().map(quiet);
    let mut alone = silent.clone();
    for (at, drive) in alone.drives.iter_mut().enumerate() {
        if at as u64 != unit.selected {
            *drive = blank.clone();
        }
    }
    let mut all = vec![alone, silent, bytes];
    for at in 0..4 {
        let mut without = unit.clone();
        without.drives[at] = blank.clone();
        all.push(without);
    }
    all
}

/// Takes bytes given off the tapes, half of them at a time, from either end.
fn shorten(program: &dyn Program, best: &mut Difference) -> bool {
    let mut helped = false;
    for (at, front) in (0..4).flat_map(|at| [(at, true), (at, false)]) {
        loop {
            let Frame::Step(mut step) = best.frame.clone() else {
                return helped;
            };
            let tape = &mut step.tapes[at];
            let half = tape.given.len().div_ceil(2);
            if half == 0 {
                break;
            }
            if front {
                tape.given.drain(..half);
                tape.at += half as u32;
            } else {
                tape.given.truncate(tape.given.len() - half);
            }
            match difference(program, &Frame::Step(step)) {
                Some(found) => (*best, helped) = (found, true),
                None => break,
            }
        }
    }
    helped
}

/// Leaves off the last bytes of a call with many, at first half of them, in the end one.
fn fewer(program: &dyn Program, best: &mut Difference) -> bool {
    let mut helped = false;
    let mut off = usize::MAX;
    while off > 0 {
        let Frame::Step(mut step) = best.frame.clone() else {
            return helped;
        };
        let Some(bytes) = step.asked.many().filter(|bytes| !bytes.is_empty()) else {
            return helped;
        };
        off = off.min(bytes.len().div_ceil(2));
        bytes.truncate(bytes.len() - off);
        match difference(program, &Frame::Step(step)) {
            Some(found) => (*best, helped) = (found, true),
            None => off /= 2,
        }
    }
    helped
}
