//! Buffers that hold no record, and buffers of random bytes that do.

use super::parts::noise;
use super::possible::at_work;
use super::{events, Index};
use crate::compare::random::Random;
use crate::probe::codec;
use crate::probe::frame::{Asked, Frame, Step};
use crate::state::LONGEST;
use std::sync::OnceLock;

/// A way to be no record.
#[derive(Clone, Copy)]
enum Spoil {
    Length(usize),
    Byte(usize, u8),
    /// A number at Rest.
    Number(u64),
}

fn all() -> &'static [Spoil] {
    static ALL: OnceLock<Vec<Spoil>> = OnceLock::new();
    ALL.get_or_init(|| {
        let lengths = (0..=700).chain([1000, 2 * codec::SIZE, 4096, 65_535, 65_536]);
        let mut all: Vec<Spoil> =
            lengths.filter(|&length| length != codec::SIZE).map(Spoil::Length).collect();
        let versions = (0..=255).filter(|&byte| byte != codec::VERSION);
        all.extend(versions.map(|byte| Spoil::Byte(0, byte)));
        for at in codec::unused() {
            all.extend((1..=255).map(|byte| Spoil::Byte(at, byte)));
        }
        for at in codec::bools() {
            all.extend((2..=255).map(|byte| Spoil::Byte(at, byte)));
        }
        all.extend((4..=255).map(|byte| Spoil::Byte(codec::PHASE, byte)));
        for at in codec::modes() {
            all.extend((3..=255).map(|byte| Spoil::Byte(at, byte)));
        }
        all.extend((0..64).map(|bit| Spoil::Number(1 << bit)));
        all.extend([3, 6, 511, 512, u64::MAX].map(Spoil::Number));
        all
    })
}

/// Makes the bytes no record in this way.
fn put(spoil: Spoil, random: &mut Random, record: &mut Vec<u8>) {
    match spoil {
        Spoil::Length(length) => {
            let more = noise(random, length.saturating_sub(record.len()));
            record.truncate(length);
            record.extend(more);
        }
        Spoil::Byte(at, byte) => record.iter_mut().skip(at).take(1).for_each(|old| *old = byte),
        Spoil::Number(number) if record.len() >= codec::NUMBER.end => {
            record[codec::PHASE] = 0;
            record[codec::NUMBER].copy_from_slice(&number.to_le_bytes());
        }
        Spoil::Number(_) => {}
    }
}

/// Makes the record of a frame none, in any way.
pub fn spoil(random: &mut Random, frame: &mut Frame) {
    if let Frame::Step(step) = frame {
        put(random.pick(all()), random, &mut step.record);
    }
}

/// Every way to be no record, alone.
pub fn each_flaw(random: &mut Random, index: &mut Index, frames: &mut Vec<Frame>) {
    let spoil = index.of(all());
    let event = random.pick(&[&[0x06][..], &[0x01, 0xC0], &[], &[0x03], &[0x07, 0x00], &[0x0B]]);
    let mut frame = at_work(random).with(event);
    if let Frame::Step(step) = &mut frame {
        put(spoil, random, &mut step.record);
    }
    frames.push(frame);
}

/// Two or three ways at once.
pub fn several_flaws(random: &mut Random, _: &mut Index, frames: &mut Vec<Frame>) {
    let event = events::any(random);
    let mut frame = at_work(random).with(&event);
    (0..random.among(2..4)).for_each(|_| spoil(random, &mut frame));
    frames.push(frame);
}

/// Random bytes where each one is a record's: tags that exist, numbers often small.
pub fn skeleton(random: &mut Random, _: &mut Index, frames: &mut Vec<Frame>) {
    let event = events::any(random);
    let tapes = at_work(random).tapes;
    let mut record = noise(random, codec::SIZE);
    record[0] = codec::VERSION;
    codec::bools().into_iter().for_each(|at| record[at] &= 1);
    codec::modes().into_iter().for_each(|at| record[at] %= 3);
    codec::unused().into_iter().for_each(|at| record[at] = 0);
    record[codec::PHASE] &= 3;
    let places = if record[codec::PHASE] == 3 { 0..8 } else { 0..514 };
    let number = random.among(places) as u64;
    lower(random, &mut record[codec::SELECTED..][..1], 4);
    lower(random, &mut record[codec::NUMBER], number + 1);
    if record[codec::PHASE] == 0 {
        record[codec::NUMBER].fill(0);
    }
    for drive in codec::in_drives(&[0]) {
        // Bits that do not fit each other would leave few records that can be.
        if random.chance(750) {
            record[drive + 16..drive + 18].copy_from_slice(&[1, 0]);
        }
        let most = if record[drive + 19] == 1 { 3 } else { 1 };
        lower(random, &mut record[drive + codec::LATE..][..1], most);
        let bound = random.pick(&[3000, 3000, 3000, LONGEST + 2]);
        lower(random, &mut record[drive..drive + 8], bound);
    }
    frames.push(Frame::Step(Step { record, tapes, asked: Asked::Event(event) }));
}

/// Most often brings a number below a bound; else it stays any number.
fn lower(random: &mut Random, bytes: &mut [u8], bound: u64) {
    if random.chance(970) {
        let below = random.number() % bound;
        bytes.copy_from_slice(&below.to_le_bytes()[..bytes.len()]);
    }
}

/// The length of a record, and fresh records in buffers of every length.
pub fn fresh(random: &mut Random, index: &mut Index, frames: &mut Vec<Frame>) {
    let length = index.below(1400);
    frames.push(Frame::Size);
    frames.push(Frame::Fresh(noise(random, length)));
}
