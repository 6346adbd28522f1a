//! Input that ends a run: nothing at all, events cut off, unknown kinds, drives that are none.

use super::Case;
use crate::compare::random::Random;
use crate::compare::steer::steered_part;
use crate::events;

/// Something well formed to come before, one event of each kind.
const BEFORE: [&[u8]; 11] = [
    &[],
    &[0x01, 0xC0],
    &[0x02, 0x55],
    &[0x03],
    &[0x04],
    &[0x05],
    &[0x06],
    &[0x07, 0x80],
    &[0x08, 0x01],
    &[0x09, 0x02],
    &[0x0A, 0x03],
];

pub fn empty() -> Vec<Case> {
    vec![Case::new("empty input", "no byte", Vec::new)]
}

/// Each kind without its body: at the start, after one event of each kind, after many.
pub fn cut_off(seed: u64) -> Vec<Case> {
    let mut cases = Vec::new();
    for kind in (0..=255).filter(|&kind| events::length(kind) == 2) {
        for before in BEFORE {
            let trace = [before, &[kind]].concat();
            let name = format!("kind {kind:02X} after {} bytes: {before:02X?}", before.len());
            cases.push(Case::new("cut off", name, move || trace.clone()));
        }
        let name = format!("kind {kind:02X} after many events");
        cases.push(Case::new("cut off", name, move || {
            let mut random = Random::for_case(seed, "cut off", kind as usize);
            let mut trace = steered_part(&mut random, 300);
            trace.push(kind);
            trace
        }));
    }
    cases
}

/// Bytes that end a run, at the start or after a few events, with more that must not be read.
fn ending(seed: u64, suite: &'static str, number: usize, bytes: Vec<u8>) -> Case {
    Case::new(suite, format!("{bytes:02X?}"), move || {
        let mut random = Random::for_case(seed, suite, number);
        let count = random.pick(&[0, 0, 10, 100]);
        let mut trace = steered_part(&mut random, count);
        trace.extend_from_slice(&bytes);
        trace.extend_from_slice(&[0x01, 0xC0, 0x03, 0x06]);
        trace
    })
}

/// Every kind byte: the unknown ones end a run each, the known ones follow one another.
pub fn kinds(seed: u64) -> Vec<Case> {
    let unknown = |kind: &u8| !(0x01..=0x0A).contains(kind);
    let mut cases = vec![Case::new("kinds", "all known", || BEFORE.concat())];
    for kind in (0..=255).filter(unknown) {
        cases.push(ending(seed, "kinds", kind as usize, vec![kind]));
    }
    cases
}

/// Every body of 07 to 0A: the wrong ones end a run each, the right ones follow one another.
pub fn drive_bodies(seed: u64) -> Vec<Case> {
    let right = |kind: u8, body: u8| events::Event::of(&[kind, body]).is_some();
    let each = || (0x07..=0x0A).flat_map(|kind| (0..=255).map(move |body| (kind, body)));
    let mut all = Vec::new();
    // Twice, so that each drive meets each event with and without a cartridge.
    for kind in [0x09, 0x0A, 0x08, 0x07, 0x07, 0x09, 0x0A, 0x08] {
        (0..=255).filter(|&body| right(kind, body)).for_each(|body| all.extend([kind, body]));
    }
    let mut cases = vec![Case::new("drive bodies", "all right", move || all.clone())];
    for (kind, body) in each().filter(|&(kind, body)| !right(kind, body)) {
        let number = kind as usize * 256 + body as usize;
        cases.push(ending(seed, "drive bodies", number, vec![kind, body]));
    }
    cases
}
