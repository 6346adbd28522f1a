//! One test for each line of 'Runs to check', and the sample of `replay`.

use crate::commands::*;
use crate::compare::script::Script;
use crate::{replay, Answer, Mode, Phase};

/// Drive 0 loaded, POR read, ONLINE up, its tape as given.
fn loaded(tape: Vec<u8>, protected: bool) -> Script {
    let mut script = Script::on([tape, vec![], vec![], vec![]]);
    script.insert(0, protected);
    script.report();
    script.raise();
    script
}

/// A tape of zeros but for its first bytes.
fn tape(length: usize, first: &[u8]) -> Vec<u8> {
    let mut tape = vec![0; length];
    tape[..first.len()].copy_from_slice(first);
    tape
}

/// Octets 0 and 1 of a report made now.
fn two(script: &mut Script) -> [u8; 2] {
    let octets = script.report();
    [octets[0], octets[1]]
}

#[test]
fn fresh_no_cartridge_c0_81_again_c0_00() {
    let mut script = Script::default();
    assert_eq!(two(&mut script), [0xC0, 0x81]);
    assert_eq!(two(&mut script), [0xC0, 0x00]);
}

#[test]
fn loaded_open_por_read_00_88_protected_90_88() {
    assert_eq!(two(&mut loaded(tape(4096, &[]), false)), [0x00, 0x88]);
    assert_eq!(two(&mut loaded(tape(4096, &[]), true)), [0x90, 0x88]);
}

#[test]
fn loaded_open_por_read_code_00_and_code_03_00_c8() {
    for code in [0x00, 0x03] {
        let mut script = loaded(tape(4096, &[]), false);
        assert_eq!(script.command(code).answer, Answer::Exception);
        assert_eq!(two(&mut script), [0x00, 0xC8]);
    }
}

#[test]
fn read_on_an_empty_tape_00_a8() {
    let mut script = loaded(tape(4096, &[]), false);
    assert_eq!(script.command(READ).answer, Answer::Exception);
    assert_eq!(two(&mut script), [0x00, 0xA8]);
}

#[test]
fn write_protected_90_88_tape_same() {
    let mut script = loaded(tape(4096, &[0x02, 0x07]), true);
    assert_eq!(script.command(WRITE).answer, Answer::Exception);
    assert_eq!(two(&mut script), [0x90, 0x88]);
    assert_eq!(script.tapes[0], tape(4096, &[0x02, 0x07]));
}

#[test]
fn l_1541_one_block_is_taken_then_88_00() {
    let mut script = loaded(tape(1541, &[]), false);
    assert_eq!(script.command(WRITE).answer, Answer::Taken);
    assert_eq!(script.give_block(0x10).answer, Answer::Exception);
    assert_eq!(script.tapes[0][..3], [0x01, 0x10, 0x11]);
    assert_eq!(script.tapes[0][512..514], [0x0F, 0x00]);
    assert_eq!(two(&mut script), [0x88, 0x00]);
}

#[test]
fn l_1540_write_is_taken_00_88_two_blocks_then_88_00() {
    let mut script = loaded(tape(1540, &[]), false);
    assert_eq!(script.command(WRITE).answer, Answer::Taken);
    assert_eq!(two(&mut script), [0x00, 0x88]);
    assert_eq!(script.give_block(0x10).answer, Answer::Taken);
    assert_eq!(script.give_block(0x20).answer, Answer::Exception);
    assert_eq!(script.unit.drives[0].head, 1026);
    assert_eq!(script.tapes[0][513..516], [0x01, 0x20, 0x21]);
    assert_eq!(two(&mut script), [0x88, 0x00]);
}

#[test]
fn l_1540_write_again_after_eom_takes_one_more_block() {
    let mut script = loaded(tape(1540, &[]), false);
    for (answer, head) in [(Answer::Taken, 513), (Answer::Exception, 1026)] {
        assert_eq!(script.record_block(0x10).answer, answer);
        assert_eq!(script.unit.drives[0].head, head);
    }
    assert_eq!(two(&mut script), [0x88, 0x00]);
    assert_eq!(script.command(WRITE).answer, Answer::Taken);
    assert_eq!(script.give_block(0x20).answer, Answer::Exception);
    assert_eq!(script.unit.drives[0].head, 1539);
    assert_eq!(two(&mut script), [0x88, 0x00]);
    assert_eq!(script.command(WRITE).answer, Answer::Exception);
    assert_eq!(two(&mut script), [0x88, 0x00]);
}

#[test]
fn l_514_one_block_then_eom() {
    let mut script = loaded(tape(514, &[]), false);
    assert_eq!(script.command(WRITE).answer, Answer::Taken);
    assert_eq!(script.give_block(0x10).answer, Answer::Exception);
    assert_eq!(script.tapes[0][..2], [0x01, 0x10]);
    assert_eq!(script.tapes[0][512..], [0x0F, 0x00]);
    assert_eq!(two(&mut script), [0x88, 0x00]);
}

#[test]
fn l_513_write_gives_88_88_at_once() {
    let mut script = loaded(tape(513, &[]), false);
    assert_eq!(script.command(WRITE).answer, Answer::Exception);
    assert_eq!(two(&mut script), [0x88, 0x88]);
}

#[test]
fn what_rigs_do_a_trial_closed_past_early_warning_and_read_back() {
    let mut script = loaded(tape(1541, &[]), false);
    script.command(WRITE);
    assert_eq!(script.give_block(0x10).answer, Answer::Exception);
    assert_eq!(two(&mut script), [0x88, 0x00]);
    assert_eq!(script.command(WRITE).answer, Answer::Taken);
    for (first, answer, head) in [(0x20, Answer::Taken, 1026), (0x30, Answer::Exception, 1539)] {
        assert_eq!(script.give_block(first).answer, answer);
        assert_eq!(script.unit.drives[0].head, head);
    }
    assert_eq!(two(&mut script), [0x88, 0x00]);
    assert_eq!(script.command(WRITE_FILE_MARK).answer, Answer::Taken);
    assert_eq!((script.unit.drives[0].head, script.tapes[0][1539]), (1540, 0x02));
    script.command(BOT);
    script.command(READ);
    for first in [0x10u8, 0x20, 0x30] {
        (0..512u16).for_each(|n| {
            assert_eq!(script.take().byte, Some(first.wrapping_add(n as u8)));
        });
    }
    assert_eq!(two(&mut script), [0x81, 0x00]);
}

#[test]
fn mark_passed_head_1_81_00_kind_07_at_head_1_read_86_00() {
    let mut script = loaded(tape(4096, &[0x02, 0x07]), false);
    assert_eq!(script.command(READ).answer, Answer::Exception);
    assert_eq!(script.unit.drives[0].head, 1);
    assert_eq!(two(&mut script), [0x81, 0x00]);
    assert_eq!(script.command(READ).answer, Answer::Exception);
    assert_eq!(two(&mut script), [0x86, 0x00]);
}

#[test]
fn kind_07_at_head_0_read_86_88() {
    let mut script = loaded(tape(4096, &[0x07]), false);
    assert_eq!(script.command(READ).answer, Answer::Exception);
    assert_eq!(two(&mut script), [0x86, 0x88]);
}

#[test]
fn bytes_given_511_then_command_answer_2_512_taken() {
    let mut script = loaded(tape(4096, &[]), false);
    script.command(WRITE);
    for _ in 0..511 {
        assert_eq!(script.give(0x55).answer, Answer::Taken);
    }
    assert_eq!(script.command(WRITE_FILE_MARK).answer, Answer::OutOfStep);
    assert_eq!(script.unit.phase, Phase::Taking(511));
    assert_eq!(script.give(0x55).answer, Answer::Taken);
    assert_eq!(script.command(WRITE_FILE_MARK).answer, Answer::Taken);
}

#[test]
fn write_reset_tape_same() {
    let mut script = loaded(tape(4096, &[0x02, 0x07]), false);
    script.command(WRITE);
    script.give(0x55);
    assert_eq!(script.reset().answer, Answer::Exception);
    assert_eq!(script.tapes[0], tape(4096, &[0x02, 0x07]));
}

#[test]
fn write_online_dropped_one_mark_head_0() {
    let mut script = loaded(tape(4096, &[0x07, 0x07, 0x07]), false);
    script.command(WRITE);
    assert_eq!(script.lower().answer, Answer::Taken);
    assert_eq!(script.tapes[0], tape(4096, &[0x02, 0x00, 0x07]));
    assert_eq!(script.unit.drives[0].head, 0);
    assert_eq!(script.unit.drives[0].mode, Mode::Idle);
}

#[test]
fn the_sample_of_replay() {
    let input = [0x01, 0xC0, 0x03, 0x03, 0x03, 0x03, 0x03, 0x03, 0x01, 0x00];
    let text = "tape unit, 4 drives\n1 0 R-D --\n2 0 R-D C0\n3 0 R-D 81\n4 0 R-D 00\n\
                5 0 R-D 00\n6 0 R-D 00\n7 0 R-- 00\n8 1 -E- --\n8 events\n";
    assert_eq!(String::from_utf8(replay(&input)).unwrap(), text);
}

#[test]
fn replay_of_nothing_of_a_cut_off_event_and_of_an_unknown_kind() {
    assert_eq!(replay(&[]), b"tape unit, 4 drives\n0 events\n");
    assert_eq!(replay(&[0x07]), b"tape unit, 4 drives\n1 4 -E- --\n1 events\n");
    assert_eq!(replay(&[0x0B, 0x03]), b"tape unit, 4 drives\n1 4 -E- --\n1 events\n");
    assert_eq!(
        replay(&[0x04, 0x08, 0x80, 0x03]),
        b"tape unit, 4 drives\n1 0 -E- --\n2 4 -E- --\n2 events\n"
    );
}
