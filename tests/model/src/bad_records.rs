//! Which kind of bad record it is: UDE and BNL for an unknown kind, UDE alone for all else.

use crate::commands::*;
use crate::compare::script::Script;
use crate::set_records::bench;
use crate::{Answer, Mode, Phase};

/// The kind bytes that no record has: the edges, and the one of document 01.
const UNKNOWN: [u8; 5] = [0x03, 0x07, 0x7F, 0x80, 0xFF];

/// What is told of a bad record.
const UDE_AND_BNL: (bool, bool) = (true, true);
const UDE_ALONE: (bool, bool) = (true, false);

/// UDE and BNL of a drive that ended its reading with this head; nothing else may be latched.
fn told(script: &Script, head: u64) -> (bool, bool) {
    let drive = script.drive();
    assert_eq!((drive.mode, drive.exception, drive.head), (Mode::Idle, true, head));
    assert_eq!(script.unit.phase, Phase::Rest);
    let latched = drive.latched;
    assert!(!(latched.cni || latched.eom || latched.fil || latched.ill));
    assert!(!(latched.ndt || latched.por));
    (latched.ude, latched.bnl)
}

/// A bench over a tape with these kind bytes, each at the end of the block before it.
fn tape_of(kinds: &[u8], length: usize, mode: Mode, head: u64) -> Script {
    let mut script = bench(length, mode, head);
    for (n, &kind) in kinds.iter().enumerate() {
        script.tapes[0][n * 513] = kind;
    }
    script
}

/// READ, READ FILE MARK in both modes that take it, and the first byte taken, at this head.
fn at_the_head(kinds: &[u8], length: usize, head: u64, wanted: (bool, bool)) {
    for (mode, event) in [
        (Mode::Idle, &[0x01, READ][..]),
        (Mode::Idle, &[0x01, READ_FILE_MARK]),
        (Mode::Reading, &[0x01, READ_FILE_MARK]),
        (Mode::Reading, &[0x03]),
    ] {
        let mut script = tape_of(kinds, length, mode, head);
        let outcome = script.send(event);
        assert_eq!((outcome.answer, outcome.byte), (Answer::Exception, None));
        assert_eq!(told(&script, head), wanted);
    }
}

/// Byte 512 and READ FILE MARK, from heads with one block or more before the last of these kinds.
fn behind_blocks(kinds: &[u8], length: usize, wanted: (bool, bool)) {
    let end = (kinds.len() as u64 - 1) * 513;
    for mode in [Mode::Idle, Mode::Reading] {
        let mut script = tape_of(kinds, length, mode, 0);
        assert_eq!(script.command(READ_FILE_MARK).answer, Answer::Exception);
        assert_eq!(told(&script, end), wanted);
    }
    let mut script = tape_of(kinds, length, Mode::Reading, end - 513);
    script.unit.phase = Phase::Giving(511);
    script.tapes[0][end as usize - 1] = 0x5A;
    let outcome = script.take();
    assert_eq!((outcome.answer, outcome.byte), (Answer::Exception, Some(0x5A)));
    assert_eq!(told(&script, end), wanted);
}

#[test]
fn an_unknown_kind_is_ude_and_bnl_at_every_edge_check() {
    for kind in UNKNOWN {
        for length in [1, 2, 513, 2000] {
            at_the_head(&[kind], length, 0, UDE_AND_BNL);
        }
        behind_blocks(&[0x01, kind], 514, UDE_AND_BNL);
        behind_blocks(&[0x01, 0x01, 0x01, kind], 4000, UDE_AND_BNL);
    }
}

#[test]
fn a_block_past_the_end_is_ude_alone_at_every_edge_check() {
    for short in [1, 2, 512] {
        at_the_head(&[0x01], 513 - short, 0, UDE_ALONE);
        behind_blocks(&[0x01, 0x01], 1026 - short, UDE_ALONE);
        behind_blocks(&[0x01, 0x01, 0x01], 1539 - short, UDE_ALONE);
    }
}

#[test]
fn a_head_above_the_tape_is_ude_alone_at_every_edge_check() {
    // The last byte of the tape is not the one at the head.
    for above in [1, 2, 1000] {
        at_the_head(&[0x07], 1, 1 + above, UDE_ALONE);
        at_the_head(&[], 0, above, UDE_ALONE);
    }
}

/// A byte taken inside a block whose record is no longer what it was.
fn inside(change: impl Fn(&mut Vec<u8>)) -> (bool, bool) {
    let taken = |n: u64| {
        let mut script = tape_of(&[0x07, 0x01], 2000, Mode::Reading, 513);
        script.unit.phase = Phase::Giving(n);
        change(&mut script.tapes[0]);
        let outcome = script.take();
        assert_eq!((outcome.answer, outcome.byte), (Answer::Exception, None));
        told(&script, 513)
    };
    let all = [1, 2, 255, 510, 511].map(taken);
    assert!(all.iter().all(|told| *told == all[0]));
    all[0]
}

#[test]
fn a_record_that_becomes_an_unknown_kind_inside_a_block_is_ude_and_bnl() {
    for kind in UNKNOWN {
        assert_eq!(inside(|tape| tape[513] = kind), UDE_AND_BNL);
        let cut = |tape: &mut Vec<u8>| {
            tape[513] = kind;
            tape.truncate(514);
        };
        assert_eq!(inside(cut), UDE_AND_BNL);
    }
}

#[test]
fn a_record_that_becomes_anything_else_inside_a_block_is_ude_alone() {
    for kind in [0x00, 0x02] {
        assert_eq!(inside(|tape| tape[513] = kind), UDE_ALONE);
    }
    // A block too long by one byte and by 512; a head at the tape's end; a head above it.
    for length in [1025, 514, 513, 512, 1, 0] {
        assert_eq!(inside(|tape| tape.truncate(length)), UDE_ALONE);
    }
}

#[test]
fn a_mark_or_the_end_of_data_before_an_unknown_kind_is_no_bad_record() {
    for (first, order) in [(0, READ), (0, READ_FILE_MARK), (2, READ), (2, READ_FILE_MARK)] {
        let mut script = bench(600, Mode::Idle, 0);
        script.tapes[0][..2].copy_from_slice(&[first, 0x07]);
        assert_eq!(script.command(order).answer, Answer::Exception);
        let latched = script.drive().latched;
        assert_eq!((latched.fil, latched.ndt), (first == 2, first == 0));
        assert!(!latched.ude && !latched.bnl);
    }
}

/// UDE and BNL latched at head 0 of drive 0.
fn bad() -> Script {
    let mut script = tape_of(&[0x07], 600, Mode::Idle, 0);
    script.command(READ);
    assert_eq!(told(&script, 0), UDE_AND_BNL);
    script
}

#[test]
fn a_report_tells_bnl_and_clears_it() {
    let mut script = bad();
    assert_eq!(script.report()[..2], [0x86, 0x88]);
    let latched = script.drive().latched;
    assert!(!latched.ude && !latched.bnl && !script.drive().exception);
    assert_eq!(script.report()[..2], [0x00, 0x88]);
}

#[test]
fn reset_clears_bnl_in_every_drive() {
    let mut script = bad();
    script.unit.drives[2].latched.bnl = true;
    script.reset();
    assert!(script.unit.drives.iter().all(|drive| !drive.latched.bnl && !drive.latched.ude));
    assert_eq!(script.report()[..2], [0x00, 0x89]);
}

#[test]
fn a_cartridge_out_and_in_keeps_bnl() {
    let mut script = bad();
    script.pull(0);
    assert!(script.drive().latched.bnl);
    script.insert(0, true);
    assert!(script.drive().latched.bnl);
    assert_eq!(script.report()[..2], [0xD6, 0x88]);
}

#[test]
fn bnl_that_is_latched_stays_where_ude_comes_alone() {
    let mut script = tape_of(&[0x01], 512, Mode::Idle, 0);
    script.unit.drives[0].latched.bnl = true;
    script.command(READ);
    assert_eq!(told(&script, 0), UDE_AND_BNL);
}

#[test]
fn bnl_has_its_own_place_in_octet_0() {
    let mut script = bench(600, Mode::Idle, 5);
    script.unit.drives[0].latched.bnl = true;
    assert_eq!(script.report()[..2], [0x82, 0x00]);
}

#[test]
fn bnl_is_latched_in_the_selected_drive_alone() {
    let mut script = bad();
    assert!(script.unit.drives[1..].iter().all(|drive| !drive.latched.bnl));
    script.report();
    script.command(SELECT[3]);
    script.report();
    script.insert(3, false);
    script.tapes[3] = vec![0xFF];
    assert_eq!(script.command(READ).answer, Answer::Exception);
    let latched = [0, 1, 2, 3].map(|at| script.unit.drives[at].latched.bnl);
    assert_eq!(latched, [false, false, false, true]);
}
