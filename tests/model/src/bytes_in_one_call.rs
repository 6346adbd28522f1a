//! Many bytes in one call, by hand: where a call stops, what it counts, and what it leaves alone.

use crate::commands::*;
use crate::compare::script::Script;
use crate::set_records::bench;
use crate::{Answer, Lines, Mode, Outcome, Phase, Unit, Went};

/// READY, EXCEPTION and DIRECTION, those that are up by their letters.
fn lines(up: &str) -> Lines {
    let [ready, exception, direction] = ['R', 'E', 'D'].map(|line| up.contains(line));
    Lines { ready, exception, direction }
}

/// A call that moved so many bytes, and its last event.
fn went(count: usize, answer: Answer, byte: Option<u8>, up: &str) -> Went {
    Went { count, last: Outcome { answer, byte, lines: lines(up) } }
}

/// Bytes of which two neighbours are never the same, nor two that are one block apart.
fn bytes(count: usize) -> Vec<u8> {
    (0..count).map(|n| (n % 251) as u8).collect()
}

fn give(script: &mut Script, bytes: &[u8]) -> Went {
    script.unit.give_many(&mut script.tapes, bytes)
}

/// What a buffer of so many bytes EE holds after it was taken into, and what came of that.
fn take(script: &mut Script, count: usize) -> (Vec<u8>, Went) {
    let mut buffer = vec![0xEE; count];
    let went = script.unit.take_many(&mut script.tapes, &mut buffer);
    (buffer, went)
}

/// A bench that is Reading a tape with these records one after the other.
fn reading(kinds: &[u8]) -> Script {
    let mut script = bench(4000, Mode::Reading, 0);
    let mut at = 0;
    for &kind in kinds {
        script.tapes[0][at] = kind;
        at += 1;
        if kind == 0x01 {
            script.tapes[0][at..at + 512].copy_from_slice(&bytes(512));
            at += 512;
        }
    }
    script
}

#[test]
fn without_a_byte_there_is_no_event_and_the_lines_stand() {
    for (mode, phase, exception, up) in [
        (Mode::Idle, Phase::Rest, false, "R"),
        (Mode::Idle, Phase::Rest, true, "E"),
        (Mode::Writing, Phase::Taking(511), false, ""),
        (Mode::Reading, Phase::Giving(1), false, "D"),
        (Mode::Reading, Phase::Rest, false, "RD"),
        (Mode::Reading, Phase::Status(3), true, "ED"),
        // These cannot be, and no event tells so.
        (Mode::Idle, Phase::Taking(0), false, ""),
        (Mode::Reading, Phase::Taking(900), false, "D"),
        (Mode::Writing, Phase::Status(7), false, "RD"),
    ] {
        let mut script = bench(4000, mode, 0);
        (script.unit.phase, script.unit.drives[0].exception) = (phase, exception);
        let before = script.unit.clone();
        let nothing = went(0, Answer::Taken, None, up);
        assert_eq!(give(&mut script, &[]), nothing);
        assert_eq!(take(&mut script, 0), (vec![], nothing));
        assert_eq!(script.unit, before);
    }
}

#[test]
fn without_a_byte_a_selected_number_above_3_is_drive_3() {
    let mut script = bench(4000, Mode::Reading, 0);
    script.unit.drives[3].exception = false;
    for selected in [4, 255] {
        script.unit.selected = selected;
        assert_eq!(give(&mut script, &[]), went(0, Answer::Taken, None, "R"));
    }
    script.unit.drives[3].exception = true;
    assert_eq!(take(&mut script, 0).1, went(0, Answer::Taken, None, "E"));
}

#[test]
fn without_a_byte_a_tape_too_long_is_not_met() {
    let mut script = bench(4000, Mode::Writing, 0);
    script.tapes[2] = vec![0; 16_777_217];
    assert_eq!(give(&mut script, &[]), went(0, Answer::Taken, None, "R"));
    assert_eq!(take(&mut script, 0).1, went(0, Answer::Taken, None, "R"));
    assert_eq!(give(&mut script, &[1, 2]), went(0, Answer::TapeTooLong, None, "R"));
    assert_eq!(take(&mut script, 2).1, went(0, Answer::TapeTooLong, None, "R"));
}

#[test]
fn a_call_that_is_refused_moves_nothing() {
    for (mode, phase, exception) in [
        (Mode::Idle, Phase::Rest, false),
        (Mode::Writing, Phase::Rest, true),
        (Mode::Writing, Phase::Taking(7), true),
        (Mode::Reading, Phase::Rest, true),
    ] {
        let mut script = bench(4000, mode, 0);
        (script.unit.phase, script.unit.drives[0].exception) = (phase, exception);
        let before = script.unit.clone();
        let refused = went(0, Answer::OutOfStep, None, if exception { "E" } else { "R" });
        assert_eq!(give(&mut script, &bytes(600)), refused);
        assert_eq!(take(&mut script, 9), (vec![0xEE; 9], refused));
        assert_eq!(script.unit, before);
    }
}

#[test]
fn a_record_that_cannot_be_moves_nothing() {
    let breaks: [fn(&mut Unit); 3] = [
        |unit| unit.selected = 4,
        |unit| unit.phase = Phase::Taking(512),
        |unit| unit.drives[2].protected = true,
    ];
    for change in breaks {
        let mut script = bench(4000, Mode::Writing, 0);
        change(&mut script.unit);
        let before = script.unit.clone();
        assert_eq!(give(&mut script, &[1, 2]), Went::IMPOSSIBLE);
        assert_eq!(take(&mut script, 2), (vec![0xEE; 2], Went::IMPOSSIBLE));
        assert_eq!(script.unit, before);
    }
}

#[test]
fn bytes_given_go_on_into_the_next_block() {
    let mut script = bench(8000, Mode::Writing, 0);
    let all = bytes(1500);
    assert_eq!(give(&mut script, &all[..500]), went(500, Answer::Taken, None, ""));
    assert_eq!((script.unit.phase, script.drive().head), (Phase::Taking(500), 0));
    assert!(script.tapes[0].iter().all(|&byte| byte == 0));
    assert_eq!(give(&mut script, &all[500..]), went(1000, Answer::Taken, None, ""));
    assert_eq!((script.unit.phase, script.drive().head), (Phase::Taking(476), 1026));
    assert_eq!((script.tapes[0][0], &script.tapes[0][1..513]), (0x01, &all[..512]));
    assert_eq!((script.tapes[0][513], &script.tapes[0][514..1026]), (0x01, &all[512..1024]));
    assert!(script.tapes[0][1026..].iter().all(|&byte| byte == 0));
    assert_eq!(script.unit.staging[..476], all[1024..]);
    assert_eq!(script.unit.staging[476..], all[988..1024]);
}

#[test]
fn a_call_may_end_with_the_512th_byte() {
    let mut script = bench(8000, Mode::Writing, 0);
    assert_eq!(give(&mut script, &bytes(512)), went(512, Answer::Taken, None, "R"));
    assert_eq!((script.unit.phase, script.drive().head), (Phase::Rest, 513));
    let mut script = reading(&[0x01, 0x01]);
    assert_eq!(take(&mut script, 512), (bytes(512), went(512, Answer::Taken, Some(9), "RD")));
    assert_eq!((script.unit.phase, script.drive().head), (Phase::Rest, 513));
}

#[test]
fn the_512th_byte_with_eom_went_over_and_is_the_last() {
    // Room for one block and none after it, late or not; room for none.
    for (length, late, head) in [(1541, 0, 513), (2053, 0, 513), (1026, 2, 513), (1540, 0, 0)] {
        let mut script = bench(length, Mode::Writing, 0);
        script.unit.drives[0].late = late;
        script.unit.phase = Phase::Taking(2);
        assert_eq!(give(&mut script, &bytes(900)), went(510, Answer::Exception, None, "E"));
        assert_eq!((script.unit.phase, script.drive().head), (Phase::Rest, head));
        assert!(script.drive().latched.eom && script.drive().mode == Mode::Idle);
        assert_eq!(script.unit.staging[2..], bytes(510));
        assert_eq!(give(&mut script, &[1]), went(0, Answer::OutOfStep, None, "E"));
    }
}

#[test]
fn two_late_blocks_go_in_one_call_and_no_third() {
    let mut script = bench(4000, Mode::Writing, 100);
    script.unit.drives[0].late = 2;
    assert_eq!(give(&mut script, &bytes(1025)), went(1024, Answer::Exception, None, "E"));
    assert_eq!((script.drive().head, script.drive().late), (1126, 0));
    assert_eq!(script.tapes[0][614..1126], bytes(1024)[512..]);
}

#[test]
fn an_ordinary_write_takes_blocks_until_the_room_is_gone() {
    // Room for two blocks, each with 1541 from its head on.
    let mut script = bench(2054, Mode::Writing, 0);
    assert_eq!(give(&mut script, &bytes(2000)), went(1024, Answer::Exception, None, "E"));
    assert_eq!((script.drive().head, script.drive().mode), (1026, Mode::Idle));
}

#[test]
fn the_octets_of_a_report_and_then_a_refusal() {
    let mut script = bench(4000, Mode::Idle, 0);
    script.error(0);
    script.command(READ_STATUS);
    let octets = [0x00, 0x88, 0x00, 0x01, 0x00, 0x00];
    assert_eq!(take(&mut script, 4), (octets[..4].to_vec(), went(4, Answer::Taken, Some(1), "RD")));
    assert_eq!(script.unit.phase, Phase::Status(2));
    let (buffer, last) = take(&mut script, 3);
    assert_eq!((&buffer[..], last), (&[0, 0, 0xEE][..], went(2, Answer::OutOfStep, None, "R")));
    assert_eq!(script.unit.phase, Phase::Rest);
}

#[test]
fn the_last_octets_alone_are_no_refusal() {
    let mut script = bench(4000, Mode::Idle, 0);
    script.command(READ_STATUS);
    assert_eq!(take(&mut script, 6).1, went(6, Answer::Taken, Some(0), "R"));
}

#[test]
fn a_call_goes_on_from_a_report_into_the_data() {
    let mut script = reading(&[0x01, 0x02]);
    script.command(READ_STATUS);
    let (buffer, last) = take(&mut script, 9);
    assert_eq!(buffer, [0x00, 0x88, 0, 0, 0, 0, 0, 1, 2]);
    assert_eq!((last, script.unit.phase), (went(9, Answer::Taken, Some(2), "D"), Phase::Giving(3)));
    // Where the data ends there, the report's octets went over all the same.
    let mut script = reading(&[]);
    script.command(READ_STATUS);
    let (buffer, last) = take(&mut script, 9);
    assert_eq!(buffer, [0x00, 0x88, 0, 0, 0, 0, 0xEE, 0xEE, 0xEE]);
    assert_eq!(last, went(6, Answer::Exception, None, "E"));
    assert!(script.drive().latched.ndt);
}

#[test]
fn two_blocks_and_a_mark_are_taken_up_to_byte_512() {
    let mut script = reading(&[0x01, 0x01, 0x02, 0x01]);
    let (buffer, last) = take(&mut script, 1300);
    assert_eq!(last, went(1024, Answer::Exception, Some(9), "E"));
    assert_eq!((&buffer[..512], &buffer[512..1024]), (&bytes(512)[..], &bytes(512)[..]));
    assert_eq!(buffer[1024..], [0xEE; 276]);
    assert_eq!((script.drive().head, script.unit.phase), (1027, Phase::Rest));
    assert!(script.drive().latched.fil && script.drive().mode == Mode::Idle);
}

#[test]
fn nothing_is_handed_out_at_a_mark_at_the_end_of_data_or_at_a_bad_record() {
    for (kind, head) in [(0x00, 0), (0x02, 1), (0x07, 0)] {
        let mut script = reading(&[kind]);
        let nothing = went(0, Answer::Exception, None, "E");
        assert_eq!(take(&mut script, 600), (vec![0xEE; 600], nothing));
        assert_eq!((script.drive().head, script.drive().mode), (head, Mode::Idle));
        let latched = script.drive().latched;
        assert_eq!((latched.ndt, latched.fil), (kind == 0x00, kind == 0x02));
        assert_eq!((latched.ude, latched.bnl), (kind == 0x07, kind == 0x07));
    }
}

#[test]
fn a_block_spoilt_between_two_calls_hands_out_nothing_more() {
    let mut script = reading(&[0x01]);
    assert_eq!(take(&mut script, 300).1, went(300, Answer::Taken, Some(48), "D"));
    script.tapes[0][0] = 0x02;
    assert_eq!(take(&mut script, 5), (vec![0xEE; 5], went(0, Answer::Exception, None, "E")));
    assert_eq!((script.unit.phase, script.drive().head), (Phase::Rest, 0));
    assert!(script.drive().latched.ude && !script.drive().latched.bnl);
}

#[test]
fn a_block_is_finished_with_exception_up_but_the_next_is_refused() {
    let mut script = reading(&[0x01, 0x01]);
    script.unit.phase = Phase::Giving(500);
    script.unit.drives[0].exception = true;
    let (buffer, last) = take(&mut script, 20);
    assert_eq!(last, went(12, Answer::OutOfStep, None, "E"));
    assert_eq!((&buffer[..12], &buffer[12..]), (&bytes(512)[500..], &[0xEE; 8][..]));
    assert_eq!((script.unit.phase, script.drive().mode), (Phase::Rest, Mode::Reading));
    assert_eq!(script.drive().head, 513);
}
