//! Events of every form and length, well-formed or not.

use super::parts::{noise, Setting};
use super::possible::lend_any;
use super::{faults, Index};
use crate::commands::*;
use crate::compare::random::Random;
use crate::probe::frame::Frame;
use crate::state::{Mode, Phase};
use std::sync::OnceLock;

/// All well-formed events but for most data bytes.
pub fn well_formed() -> &'static [Vec<u8>] {
    static ALL: OnceLock<Vec<Vec<u8>>> = OnceLock::new();
    ALL.get_or_init(|| {
        let mut all: Vec<Vec<u8>> = (0..=255).map(|code| vec![0x01, code]).collect();
        all.extend([0x00, 0x5A, 0xFF].map(|byte| vec![0x02, byte]));
        all.extend([0x03, 0x04, 0x05, 0x06].map(|kind| vec![kind]));
        for drive in 0..4 {
            all.push(vec![0x07, drive]);
            all.push(vec![0x07, drive | 0x80]);
            all.extend([0x08, 0x09, 0x0A].map(|kind| vec![kind, drive]));
        }
        all
    })
}

/// A few events of each form, the malformed too.
pub fn forms() -> &'static [Vec<u8>] {
    static ALL: OnceLock<Vec<Vec<u8>>> = OnceLock::new();
    ALL.get_or_init(|| {
        let well: [&[u8]; 18] = [
            &[0x01, READ_STATUS],
            &[0x01, BOT],
            &[0x01, ERASE],
            &[0x01, WRITE],
            &[0x01, READ],
            &[0x01, 0x02],
            &[0x01, 0x03],
            &[0x02, 0x77],
            &[0x03],
            &[0x04],
            &[0x05],
            &[0x06],
            &[0x07, 0x01],
            &[0x07, 0x82],
            &[0x08, 0x00],
            &[0x08, 0x03],
            &[0x09, 0x02],
            &[0x0A, 0x01],
        ];
        well.into_iter().chain(malformed()).map(<[u8]>::to_vec).collect()
    })
}

/// One event for each way to be malformed.
fn malformed() -> [&'static [u8]; 14] {
    [
        &[],
        &[0x00],
        &[0x0B],
        &[0x01],
        &[0x02, 0x00, 0x00],
        &[0x03, 0x03],
        &[0x06, 0x00],
        &[0x07, 0x04],
        &[0x08, 0x80],
        &[0x07, 0x84],
        &[0x09, 0x04],
        &[0x09, 0x84],
        &[0x0A, 0xFF],
        &[0x86],
    ]
}

/// Any event, more often one that a unit at work meets.
pub fn any(random: &mut Random) -> Vec<u8> {
    let orders = [WRITE, WRITE_FILE_MARK, READ, READ_FILE_MARK, READ_STATUS, BOT, ERASE, 0x04];
    match random.among(0..16) {
        0..=2 => vec![0x01, random.pick(&orders)],
        3 => vec![0x01, random.byte()],
        4..=6 => vec![0x02, random.byte()],
        7..=9 => vec![0x03],
        10..=13 => well_formed()[random.among(256..well_formed().len())].clone(),
        14 => vec![random.pick(&[0x04, 0x05, 0x05, 0x06])],
        _ => {
            let length = random.among(0..5);
            noise(random, length)
        }
    }
}

/// A record for an event that is most likely refused: able to take it, or in another phase.
fn setting(random: &mut Random, class: usize) -> Setting {
    let mut setting = Setting::new(random);
    lend_any(random, &mut setting);
    let class = match class {
        0 => (Mode::Idle, Phase::Rest),
        1 => (Mode::Writing, Phase::Taking(511)),
        2 => (Mode::Reading, Phase::Giving(3)),
        3 => (Mode::Reading, Phase::Status(2)),
        4 => (Mode::Writing, Phase::Rest),
        _ => return setting,
    };
    setting.go(class.0);
    setting.unit.phase = class.1;
    setting
}

/// Every first byte in 0 to 4 bytes; what follows is small, or anything.
pub fn short(random: &mut Random, index: &mut Index, frames: &mut Vec<Frame>) {
    let length = index.below(5);
    let first = index.below(256) as u8;
    let mut setting = setting(random, index.below(6));
    if random.chance(60) {
        faults::any(random, &mut setting);
    }
    let mut event = noise(random, length);
    if random.chance(500) {
        event.iter_mut().for_each(|byte| *byte &= 0x83);
    }
    event.iter_mut().take(1).for_each(|byte| *byte = first);
    frames.push(setting.with(&event));
}

/// Every event of two bytes.
pub fn pairs(random: &mut Random, index: &mut Index, frames: &mut Vec<Frame>) {
    let event = [index.below(256) as u8, index.below(256) as u8];
    let class = random.among(0..6);
    frames.push(setting(random, class).with(&event));
}

/// Each known kind, and one unknown, with bodies of every length that a frame can hold.
pub fn long(random: &mut Random, index: &mut Index, frames: &mut Vec<Frame>) {
    let mut event = vec![index.below(12) as u8];
    let length = index.below(255);
    event.extend(noise(random, length).iter().map(|byte| byte & 3));
    let class = random.among(0..6);
    frames.push(setting(random, class).with(&event));
}
