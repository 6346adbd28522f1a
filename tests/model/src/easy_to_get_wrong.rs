//! One test for each line of 'Easy to get wrong'.

use crate::commands::*;
use crate::compare::script::Script;
use crate::tape::{DATA, MARK};
use crate::Answer;

/// Drives 0 and 1 loaded and reported, drive 0 selected, ONLINE up.
fn two_drives() -> Script {
    let mut script = Script::default();
    for drive in [1, 0] {
        script.insert(drive, false);
        script.choose(drive);
    }
    script
}

#[test]
fn a_cartridge_changed_between_two_reports_cni_must_still_show() {
    let mut script = two_drives();
    assert_eq!(script.report()[0], 0x00);
    script.pull(0);
    script.insert(0, false);
    assert_eq!(script.report()[..2], [0xC0, 0x88]);
    assert_eq!(script.report()[..2], [0x00, 0x88]);
}

#[test]
fn an_underrun_while_octets_are_going_out_belongs_to_the_next_report() {
    let mut script = two_drives();
    script.underrun(0);
    script.command(READ_STATUS);
    script.underrun(0);
    script.underrun(0);
    script.error(0);
    let octets: Vec<u8> = (0..6).filter_map(|_| script.take().byte).collect();
    assert_eq!(octets, [0x00, 0x88, 0x00, 0x00, 0x00, 0x01]);
    assert_eq!(script.report(), [0x00, 0x88, 0x00, 0x01, 0x00, 0x02]);
}

#[test]
fn a_part_block_left_in_staging_by_reset_must_not_begin_another_drives_block() {
    let mut script = two_drives();
    script.command(WRITE);
    for _ in 0..100 {
        script.give(0xAA);
    }
    script.reset();
    script.choose(1);
    script.command(WRITE);
    for _ in 0..511 {
        assert_eq!(script.give(0xBB).answer, Answer::Taken);
    }
    assert_eq!(script.tapes[1][0], 0x00);
    script.give(0xBB);
    assert_eq!(script.tapes[1][0], DATA);
    assert!(script.tapes[1][1..513].iter().all(|&byte| byte == 0xBB));
}

#[test]
fn a_rewind_of_a_drive_because_online_fell_while_it_was_not_selected() {
    let mut script = two_drives();
    script.command(WRITE_FILE_MARK);
    script.command(SELECT[1]);
    script.lower();
    assert_eq!(script.unit.drives[0].head, 1);
    script.command(SELECT[0]);
    assert_eq!(script.report()[1], 0x00);
}

#[test]
fn a_mark_written_twice_write_file_mark_then_online_dropped_records_one() {
    let mut script = two_drives();
    script.command(WRITE);
    script.give_block(0x00);
    script.command(WRITE_FILE_MARK);
    assert_eq!(script.lower().answer, Answer::Taken);
    assert_eq!(script.tapes[0][513..516], [MARK, 0x00, 0x00]);
    assert_eq!(script.unit.drives[0].head, 0);
}
