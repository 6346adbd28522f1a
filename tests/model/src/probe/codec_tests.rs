//! The codec against the layout of a record, byte by byte.

use super::codec::*;
use crate::compare::random::Random;
use crate::compare::records::{any_tapes, any_unit};
use crate::state::{Mode, Phase, Unit};

#[test]
fn any_record_goes_there_and_back() {
    let mut random = Random::new(30);
    let tapes = any_tapes(&mut random);
    for _ in 0..20_000 {
        let mut unit = any_unit(&mut random, &tapes);
        unit.selected %= 256;
        let bytes = encode(&unit);
        assert_eq!(bytes.len(), 658);
        assert_eq!(decode(&bytes), Ok(unit));
    }
}

#[test]
fn bytes_that_are_a_record_are_its_only_form() {
    let mut random = Random::new(32);
    let mut records = 0;
    for _ in 0..200_000 {
        let mut bytes = encode(&Unit::fresh());
        for _ in 0..random.among(1..4) {
            bytes[random.among(0..146)] = random.pick(&[0, 1, 2, 3, 4, 255]);
        }
        if let Ok(unit) = decode(&bytes) {
            assert_eq!(encode(&unit), bytes);
            records += 1;
        }
    }
    assert!(records > 20_000);
}

#[test]
fn a_fresh_record_is_zeros_but_for_version_por_and_exception() {
    let mut bytes = vec![0; 658];
    bytes[0] = 2;
    for drive in [18, 50, 82, 114] {
        (bytes[drive + 21], bytes[drive + 29]) = (1, 1);
    }
    assert_eq!(encode(&Unit::fresh()), bytes);
}

/// Where a fresh record changes when something is set in it, and to what.
fn changes(set: impl FnOnce(&mut Unit)) -> Vec<(usize, u8)> {
    let mut unit = Unit::fresh();
    set(&mut unit);
    let (before, after) = (encode(&Unit::fresh()), encode(&unit));
    let pairs = before.iter().zip(&after).enumerate();
    pairs.filter(|(_, (old, new))| old != new).map(|(at, (_, new))| (at, *new)).collect()
}

#[test]
fn every_field_stands_in_its_place() {
    let eight = |start: usize| (0..8).map(|at| (start + at, at as u8 + 1)).collect::<Vec<_>>();
    const NUMBER: u64 = 0x0807_0605_0403_0201;
    assert_eq!(changes(|unit| unit.selected = 255), [(1, 255)]);
    assert_eq!(changes(|unit| unit.online = true), [(2, 1)]);
    for (tag, phase) in
        [(1, Phase::Taking(NUMBER)), (2, Phase::Giving(NUMBER)), (3, Phase::Status(NUMBER))]
    {
        assert_eq!(changes(|unit| unit.phase = phase), [&[(3, tag)], &eight(4)[..]].concat());
    }
    assert_eq!(changes(|unit| unit.octets[0] = 7), [(12, 7)]);
    assert_eq!(changes(|unit| unit.octets[5] = 7), [(17, 7)]);
    assert_eq!(changes(|unit| unit.staging[0] = 7), [(146, 7)]);
    assert_eq!(changes(|unit| unit.staging[511] = 7), [(657, 7)]);
    for (at, start) in [18, 50, 82, 114].into_iter().enumerate() {
        assert_eq!(changes(|unit| unit.drives[at].head = NUMBER), eight(start));
        let counted = |at: usize| [(at, 2), (at + 1, 1)];
        assert_eq!(changes(|unit| unit.drives[at].errors = 0x0102), counted(start + 12));
        assert_eq!(changes(|unit| unit.drives[at].underruns = 0x0102), counted(start + 14));
        assert_eq!(changes(|unit| unit.drives[at].loaded = true), [(start + 16, 1)]);
        assert_eq!(changes(|unit| unit.drives[at].protected = true), [(start + 17, 1)]);
        assert_eq!(changes(|unit| unit.drives[at].mode = Mode::Writing), [(start + 19, 1)]);
        assert_eq!(changes(|unit| unit.drives[at].mode = Mode::Reading), [(start + 19, 2)]);
        assert_eq!(changes(|unit| unit.drives[at].late = 255), [(start + 20, 255)]);
        assert_eq!(changes(|unit| unit.drives[at].exception = false), [(start + 21, 0)]);
        assert_eq!(changes(|unit| unit.drives[at].latched.cni = true), [(start + 22, 1)]);
        assert_eq!(changes(|unit| unit.drives[at].latched.eom = true), [(start + 23, 1)]);
        assert_eq!(changes(|unit| unit.drives[at].latched.ude = true), [(start + 24, 1)]);
        assert_eq!(changes(|unit| unit.drives[at].latched.bnl = true), [(start + 25, 1)]);
        assert_eq!(changes(|unit| unit.drives[at].latched.fil = true), [(start + 26, 1)]);
        assert_eq!(changes(|unit| unit.drives[at].latched.ill = true), [(start + 27, 1)]);
        assert_eq!(changes(|unit| unit.drives[at].latched.ndt = true), [(start + 28, 1)]);
        assert_eq!(changes(|unit| unit.drives[at].latched.por = false), [(start + 29, 0)]);
    }
}

#[test]
fn each_flaw_is_found() {
    let fresh = encode(&Unit::fresh());
    let with = |at: usize, byte: u8| {
        let mut bytes = fresh.clone();
        bytes[at] = byte;
        decode(&bytes).map(|_| ())
    };
    for length in (0..658).chain(659..2000) {
        let mut bytes = fresh.clone();
        bytes.resize(length, 0);
        assert_eq!(decode(&bytes), Err(Flaw::Length));
    }
    (0..=255).for_each(|byte| assert_eq!(with(0, byte).is_ok(), byte == 2));
    (0..=255).for_each(|byte| assert!(with(1, byte).is_ok()));
    assert_eq!(unused().len(), 28);
    for at in unused() {
        (1..=255).for_each(|byte| assert_eq!(with(at, byte), Err(Flaw::Unused), "{}", field(at)));
    }
    assert_eq!(bools().len(), 45);
    for at in bools() {
        (2..=255).for_each(|byte| assert_eq!(with(at, byte), Err(Flaw::Bool), "{}", field(at)));
        assert!(with(at, 0).is_ok() && with(at, 1).is_ok());
    }
    (4..=255).for_each(|byte| assert_eq!(with(3, byte), Err(Flaw::Phase)));
    (4..12).for_each(|at| assert_eq!(with(at, 1), Err(Flaw::NumberAtRest)));
    for at in modes() {
        (3..=255).for_each(|byte| assert_eq!(with(at, byte), Err(Flaw::Mode)));
        assert!((0..3).all(|byte| with(at, byte).is_ok()));
    }
}

#[test]
fn late_is_a_record_with_every_value_in_every_mode() {
    for (drive, start) in [18, 50, 82, 114].into_iter().enumerate() {
        for (mode, late) in (0..3).flat_map(|mode| (0..=255).map(move |late| (mode, late))) {
            let mut bytes = encode(&Unit::fresh());
            (bytes[start + 19], bytes[start + 20]) = (mode, late);
            let unit = decode(&bytes).expect("it is a record");
            assert_eq!(unit.drives.map(|drive| drive.late)[drive], late);
            assert_eq!(field(start + 20), format!("drive {drive} late blocks allowed"));
        }
    }
}
