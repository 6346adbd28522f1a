//! What only a record or a tape set from outside can show.

use crate::commands::*;
use crate::compare::script::Script;
use crate::{Answer, Drive, Lines, Mode, Phase, Unit};

const MODES: [Mode; 3] = [Mode::Idle, Mode::Writing, Mode::Reading];

/// A bench whose selected drive is loaded, open, ONLINE up, without EXCEPTION.
pub fn bench(length: usize, mode: Mode, head: u64) -> Script {
    let mut script = Script::on([vec![0; length], vec![], vec![], vec![]]);
    script.unit.online = true;
    let drive = &mut script.unit.drives[0];
    *drive = Drive { loaded: true, mode, head, exception: false, ..drive.clone() };
    drive.latched.por = false;
    script
}

/// RESET answered 5 with all lines down and nothing changed.
fn refused(change: impl FnOnce(&mut Unit)) -> bool {
    let mut script = bench(4096, Mode::Idle, 0);
    change(&mut script.unit);
    let before = script.unit.clone();
    let outcome = script.reset();
    let five = outcome.answer == Answer::ImpossibleRecord;
    assert!(!five || (script.unit == before && outcome.lines == Lines::default()));
    five
}

#[test]
fn answer_5_for_numbers_out_of_range() {
    for selected in [4, 255, u64::MAX] {
        assert!(refused(|unit| unit.selected = selected));
    }
    for at in 0..4 {
        assert!(refused(|unit| unit.drives[at].head = 16_777_217));
        assert!(refused(|unit| unit.drives[at].head = u64::MAX));
        assert!(!refused(|unit| unit.drives[at].head = 16_777_216));
    }
    for k in [0, 7, u64::MAX] {
        assert!(refused(|unit| unit.phase = Phase::Status(k)));
    }
    assert!(!refused(|unit| unit.phase = Phase::Status(6)));
}

#[test]
fn answer_5_for_part_blocks() {
    let part = |mode, phase| {
        refused(|unit| {
            unit.drives[0].mode = mode;
            unit.phase = phase;
        })
    };
    for n in [0, 1, 511, 512, u64::MAX] {
        let bad = !(1..=511).contains(&n);
        assert_eq!(part(Mode::Writing, Phase::Taking(n)), bad);
        assert_eq!(part(Mode::Reading, Phase::Giving(n)), bad);
        assert!(part(Mode::Idle, Phase::Taking(n)) && part(Mode::Reading, Phase::Taking(n)));
        assert!(part(Mode::Idle, Phase::Giving(n)) && part(Mode::Writing, Phase::Giving(n)));
    }
}

#[test]
fn answer_5_for_cartridge_plug_and_mode_of_any_drive() {
    for at in 0..4 {
        let set = |loaded, protected, mode| {
            refused(|unit| {
                let drive = &mut unit.drives[at];
                *drive = Drive { loaded, protected, mode, ..drive.clone() };
            })
        };
        assert!(set(false, true, Mode::Idle));
        assert!(set(false, false, Mode::Writing) && set(false, false, Mode::Reading));
        assert!(set(true, true, Mode::Writing));
        assert!(!set(true, true, Mode::Reading) && !set(true, false, Mode::Writing));
        assert!(!refused(|unit| unit.drives[at].exception = true));
    }
}

#[test]
fn answer_5_for_late_blocks_of_any_drive() {
    for (at, mode) in (0..4).flat_map(|at| MODES.map(|mode| (at, mode))) {
        for late in 0..=255 {
            let five = refused(|unit| {
                let drive = &mut unit.drives[at];
                *drive = Drive { loaded: true, mode, late, ..drive.clone() };
            });
            let most = if mode == Mode::Writing { 2 } else { 0 };
            assert_eq!(five, late > most, "drive {at}, {mode:?}, {late}");
        }
    }
}

#[test]
fn the_refusals_come_in_the_order_5_6_4_2_3() {
    let mut script = bench(4096, Mode::Idle, 0);
    script.tapes[3] = vec![0; 16_777_217];
    script.unit.selected = 4;
    assert_eq!(script.send(&[]).answer, Answer::ImpossibleRecord);
    script.unit.selected = 0;
    let outcome = script.send(&[]);
    assert_eq!(outcome.answer, Answer::TapeTooLong);
    assert_eq!(outcome.lines, Lines { ready: true, ..Lines::default() });
    script.tapes[3].pop();
    for event in [&[][..], &[0x03, 0x00], &[0x01], &[0x01, 0x00, 0x00], &[0x07, 0x04], &[0x0B]] {
        assert_eq!(script.send(event).answer, Answer::Malformed);
    }
    assert_eq!(script.take().answer, Answer::OutOfStep);
    assert_eq!(script.insert(0, true).answer, Answer::WrongCartridge);
    assert_eq!(script.pull(2).answer, Answer::WrongCartridge);
    assert_eq!(script.underrun(2).answer, Answer::WrongCartridge);
}

#[test]
fn a_block_that_changes_while_it_is_taken_is_ude() {
    let mut script = bench(600, Mode::Reading, 0);
    script.tapes[0][0] = 0x01;
    assert_eq!(script.take().byte, Some(0x00));
    script.tapes[0][2] = 0x77;
    assert_eq!(script.take().byte, Some(0x77));
    script.tapes[0].truncate(512);
    let outcome = script.take();
    assert_eq!((outcome.answer, outcome.byte), (Answer::Exception, None));
    assert_eq!((script.unit.phase, script.drive().mode), (Phase::Rest, Mode::Idle));
    assert!(script.drive().latched.ude && script.drive().head == 0);
}

#[test]
fn a_tape_that_changes_at_rest_meets_the_edge_check_again() {
    for (first, head) in [(0x00, 0), (0x02, 1), (0x07, 0)] {
        let mut script = bench(600, Mode::Reading, 0);
        script.tapes[0][0] = first;
        let outcome = script.take();
        assert_eq!((outcome.answer, outcome.byte), (Answer::Exception, None));
        assert_eq!((script.drive().mode, script.drive().head), (Mode::Idle, head));
    }
}

#[test]
fn a_taker_inside_a_block_does_not_mind_an_exception() {
    let mut script = bench(1026, Mode::Reading, 0);
    script.tapes[0][0] = 0x01;
    script.tapes[0][513] = 0x01;
    script.unit.phase = Phase::Giving(511);
    script.unit.drives[0].exception = true;
    let outcome = script.take();
    assert_eq!((outcome.answer, outcome.byte), (Answer::Taken, Some(0x00)));
    assert_eq!(script.take().answer, Answer::OutOfStep);
}

#[test]
fn the_512th_byte_without_room_records_nothing() {
    let mut script = bench(1541, Mode::Writing, 1);
    script.unit.phase = Phase::Taking(511);
    assert_eq!(script.give(0x99).answer, Answer::Exception);
    assert!(script.tapes[0].iter().all(|&byte| byte == 0) && script.unit.staging[511] == 0x99);
    assert_eq!((script.unit.phase, script.drive().mode), (Phase::Rest, Mode::Idle));
    assert!(script.drive().latched.eom && script.drive().head == 1);
}

#[test]
fn online_dropped_at_the_very_end_of_the_tape() {
    let mut script = bench(100, Mode::Writing, 99);
    assert_eq!(script.lower().answer, Answer::Taken);
    assert_eq!((script.tapes[0][99], script.drive().head), (0x02, 0));
    let mut script = bench(100, Mode::Writing, 100);
    assert_eq!(script.lower().answer, Answer::Exception);
    assert_eq!((script.drive().mode, script.drive().head), (Mode::Idle, 100));
    assert!(script.drive().latched.eom && !script.unit.online);
}

#[test]
fn a_head_above_the_tape_is_bad_to_read_and_has_no_room_to_write() {
    for (command, head, bit) in [
        (READ, 101, 'u'),
        (READ_FILE_MARK, 101, 'u'),
        (WRITE, 101, 'e'),
        (WRITE_FILE_MARK, 101, 'e'),
        (READ, 100, 'n'),
        (READ_FILE_MARK, 100, 'n'),
    ] {
        let mut script = bench(100, Mode::Idle, head);
        assert_eq!(script.command(command).answer, Answer::Exception);
        let latched = script.drive().latched;
        let found = [(latched.ude, 'u'), (latched.eom, 'e'), (latched.ndt, 'n')];
        assert!(found.iter().all(|&(up, letter)| up == (letter == bit)) && !latched.bnl);
        assert_eq!(script.drive().head, head);
    }
}

#[test]
fn a_file_mark_in_writing_asks_for_room_too() {
    let mut script = bench(100, Mode::Writing, 100);
    assert_eq!(script.command(WRITE_FILE_MARK).answer, Answer::Exception);
    assert_eq!(script.drive().mode, Mode::Idle);
    let mut script = bench(100, Mode::Writing, 99);
    script.unit.online = false;
    assert_eq!(script.command(WRITE_FILE_MARK).answer, Answer::Exception);
    assert!(script.drive().latched.ill && script.drive().mode == Mode::Writing);
}

#[test]
fn erase_clears_every_byte_and_rewinds() {
    let mut script = bench(700, Mode::Idle, 513);
    script.tapes[0].fill(0x01);
    assert_eq!(script.command(ERASE).answer, Answer::Taken);
    assert_eq!((script.tapes[0].clone(), script.drive().head), (vec![0; 700], 0));
}

#[test]
fn recording_changes_the_record_and_one_byte_after_it() {
    for (length, head) in [(700, 10), (12, 10), (11, 10)] {
        let mut script = bench(length, Mode::Idle, head);
        script.tapes[0].fill(0xEE);
        assert_eq!(script.command(WRITE_FILE_MARK).answer, Answer::Taken);
        let mut tape = vec![0xEE; length];
        tape[10] = 0x02;
        tape.iter_mut().skip(11).take(1).for_each(|byte| *byte = 0x00);
        assert_eq!((script.tapes[0].clone(), script.drive().head), (tape, 11));
    }
}
