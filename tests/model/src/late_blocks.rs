//! Late blocks: the WRITE that allows them, how they are counted, and all that ends them.

use crate::commands::*;
use crate::compare::script::Script;
use crate::set_records::bench;
use crate::{Answer, Drive, Mode, Phase};

/// A bench that is Writing with so many late blocks allowed and so much room from the head on.
fn writing(late: u8, head: u64, room: usize) -> Script {
    let mut script = bench(head as usize + room, Mode::Writing, head);
    script.unit.drives[0].late = late;
    script
}

/// The same with the last byte of a block still to come.
fn before_last_byte(late: u8, head: u64, room: usize) -> Script {
    let mut script = writing(late, head, room);
    script.unit.phase = Phase::Taking(511);
    script
}

/// Mode, late blocks and head of the selected drive.
fn stands(script: &Script) -> (Mode, u8, u64) {
    let Drive { mode, late, head, .. } = *script.drive();
    (mode, late, head)
}

#[test]
fn a_write_is_late_below_1541_and_refused_below_514() {
    for head in [0, 1, 513, 5000] {
        for room in (0..1700).chain([3000, 16_384]) {
            let mut script = bench(head as usize + room, Mode::Idle, head);
            let answer = script.command(WRITE).answer;
            let wanted = match room {
                0..=513 => (Answer::Exception, Mode::Idle, 0),
                514..=1540 => (Answer::Taken, Mode::Writing, 2),
                _ => (Answer::Taken, Mode::Writing, 0),
            };
            assert_eq!((answer, script.drive().mode, script.drive().late), wanted, "{room}");
            assert_eq!(script.drive().latched.eom, answer == Answer::Exception);
            assert_eq!(script.drive().head, head);
        }
    }
}

#[test]
fn late_is_two_whatever_the_room() {
    for room in [514, 515, 1026, 1027, 1540] {
        let mut script = bench(room, Mode::Idle, 0);
        script.command(WRITE);
        assert_eq!(script.drive().late, 2);
    }
}

/// What the 512th byte must come to: answer, mode, late blocks, and whether it is recorded.
fn last_byte(late: u8, room: usize) -> (Answer, Mode, u8, bool) {
    let eom = |recorded| (Answer::Exception, Mode::Idle, 0, recorded);
    match (late, room) {
        (0, 0..=1540) => eom(false),
        (0, 1541..=2053) => eom(true),
        (0, _) => (Answer::Taken, Mode::Writing, 0, true),
        (_, 0..=513) => eom(false),
        (1, _) | (2, 514..=1026) => eom(true),
        _ => (Answer::Taken, Mode::Writing, 1, true),
    }
}

#[test]
fn a_512th_byte_with_any_room_late_or_not() {
    for (late, head) in [(0, 0), (1, 0), (2, 0), (0, 700), (1, 700), (2, 700)] {
        for room in (0..2100).chain([2566, 2567, 2568, 5000]) {
            let mut script = before_last_byte(late, head, room);
            script.tapes[0].fill(0xEE);
            let answer = script.give(0x99).answer;
            let (wanted, mode, left, recorded) = last_byte(late, room);
            let moved = if recorded { 513 } else { 0 };
            assert_eq!((answer, stands(&script)), (wanted, (mode, left, head + moved)), "{room}");
            assert_eq!((script.unit.phase, script.unit.staging[511]), (Phase::Rest, 0x99));
            assert_eq!(script.drive().latched.eom, answer == Answer::Exception);
            let mut tape = vec![0xEE; head as usize + room];
            if recorded {
                let start = head as usize;
                tape[start] = 0x01;
                tape[start + 1..start + 514].fill(0x00);
                tape[start + 512] = 0x99;
            }
            assert!(script.tapes[0] == tape, "late {late}, room {room}");
        }
    }
}

#[test]
fn a_longer_tape_lent_meanwhile_leaves_a_late_write_late() {
    let mut script = bench(1540, Mode::Idle, 0);
    script.command(WRITE);
    script.tapes[0].resize(20_000, 0);
    assert_eq!(script.give_block(0x10).answer, Answer::Taken);
    assert_eq!(stands(&script), (Mode::Writing, 1, 513));
    assert_eq!(script.give_block(0x20).answer, Answer::Exception);
    assert_eq!(stands(&script), (Mode::Idle, 0, 1026));
    script.report();
    script.command(WRITE);
    assert_eq!(stands(&script), (Mode::Writing, 0, 1026));
}

#[test]
fn a_shorter_tape_lent_meanwhile_does_not_make_a_write_late() {
    let mut script = bench(1541, Mode::Idle, 0);
    script.command(WRITE);
    script.tapes[0].truncate(1540);
    assert_eq!(script.give_block(0x10).answer, Answer::Exception);
    assert_eq!((stands(&script), script.tapes[0][0]), ((Mode::Idle, 0, 0), 0x00));
}

#[test]
fn what_keeps_the_mode_keeps_late() {
    let counts = [0x09, 0x0A].map(|kind| vec![kind, 0x00]);
    let illegal = (0..=255).filter(|octet| ![WRITE_FILE_MARK, READ_STATUS].contains(octet));
    let orders = illegal.chain([READ_STATUS]).map(|octet| vec![0x01, octet]);
    for event in orders.chain(counts).chain([vec![0x04], vec![0x07, 0x01]]) {
        for late in 0..=2 {
            let mut script = writing(late, 7, 1540);
            script.send(&event);
            script.settle();
            assert_eq!(stands(&script), (Mode::Writing, late, 7), "{event:02X?}");
        }
    }
}

#[test]
fn what_ends_the_mode_ends_late() {
    // With room for a mark and without, for those that record one.
    for (event, room) in [
        (&[0x01, WRITE_FILE_MARK][..], 1540),
        (&[0x01, WRITE_FILE_MARK], 0),
        (&[0x05], 1540),
        (&[0x05], 0),
        (&[0x06], 1540),
        (&[0x08, 0x00], 1540),
    ] {
        for (late, exception) in [(1, false), (2, false), (1, true), (2, true)] {
            let mut script = writing(late, 7, room);
            script.unit.drives[0].exception = exception;
            script.send(event);
            let order = event[0] == 0x01;
            let kept = if exception && order { (Mode::Writing, late) } else { (Mode::Idle, 0) };
            assert_eq!((script.drive().mode, script.drive().late), kept, "{event:02X?}");
            assert!(!script.unit.impossible());
        }
    }
}

#[test]
fn drives_that_are_not_selected_lose_late_by_reset_and_by_their_cartridge() {
    let elsewhere = || {
        let mut script = bench(100, Mode::Idle, 0);
        for at in 1..4 {
            let drive = &mut script.unit.drives[at];
            *drive = Drive { loaded: true, mode: Mode::Writing, late: 2, ..drive.clone() };
        }
        script
    };
    let lates = |script: &Script| script.unit.drives.each_ref().map(|drive| drive.late);
    let mut script = elsewhere();
    script.reset();
    assert_eq!(lates(&script), [0; 4]);
    let mut script = elsewhere();
    script.pull(2);
    assert_eq!(lates(&script), [0, 2, 0, 2]);
    script.command(WRITE_FILE_MARK);
    script.lower();
    assert_eq!(lates(&script), [0, 2, 0, 2]);
}

#[test]
fn the_closing_mark_fits_behind_every_late_block() {
    for (late, room) in [(1, 514), (2, 514), (1, 1026), (2, 1026), (1, 1540), (2, 1540)] {
        let mut script = before_last_byte(late, 0, room);
        script.give(0x99);
        if script.drive().exception {
            script.report();
        }
        assert_eq!(script.command(WRITE_FILE_MARK).answer, Answer::Taken);
        assert_eq!((script.tapes[0][513], script.drive().head), (0x02, 514));
    }
}
