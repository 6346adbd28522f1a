//! The runs of documents 01 and 02, as far as tapes of 16,384 zeros can show them.

use super::Case;
use crate::commands::*;
use crate::compare::script::Script;

/// Drive 0 loaded, POR read, ONLINE up.
fn load(script: &mut Script, protected: bool) {
    script.insert(0, protected);
    script.report();
    script.raise();
}

/// The sample of `replay`.
pub fn sample() -> Vec<Case> {
    vec![Case::new("sample", "as printed", || {
        vec![0x01, 0xC0, 0x03, 0x03, 0x03, 0x03, 0x03, 0x03, 0x01, 0x00]
    })]
}

/// Each run to check; the kind 07 on a tape is out of reach, the room is taken at the tape's end.
pub fn runs_to_check() -> Vec<Case> {
    let run = |name: &str, moves: fn(&mut Script)| Case::script("runs to check", name, moves);
    vec![
        run("fresh, no cartridge, twice", |script| {
            script.report();
            script.report();
        }),
        run("loaded open", |script| {
            load(script, false);
            script.report();
        }),
        run("loaded protected", |script| {
            load(script, true);
            script.report();
        }),
        run("code 00", |script| after_loading(script, 0x00)),
        run("code 03", |script| after_loading(script, 0x03)),
        run("READ on an empty tape", |script| after_loading(script, READ)),
        run("WRITE, protected, tape same", protected_write),
        run("room of 1541", |script| write_with_room(script, 1541)),
        run("room of 1540", |script| write_with_room(script, 1540)),
        run("room of 514", |script| write_with_room(script, 514)),
        run("room of 513", |script| write_with_room(script, 513)),
        run("a trial closed past early warning", past_early_warning),
        run("mark passed, head 1", |script| {
            load(script, false);
            script.command(WRITE_FILE_MARK);
            script.command(BOT);
            script.command(READ);
            script.report();
        }),
        run("511 bytes, then a command, then the 512th", part_then_command),
        run("WRITE, RESET, tape same", write_reset),
        run("WRITE, ONLINE dropped, one mark", write_dropped),
    ]
}

fn after_loading(script: &mut Script, octet: u8) {
    load(script, false);
    script.command(octet);
    script.report();
}

fn protected_write(script: &mut Script) {
    load(script, false);
    script.command(WRITE);
    script.give_block(0x10);
    script.change(0, true);
    script.report();
    script.command(WRITE);
    script.report();
    script.read_back(0);
}

/// Blocks written where so many bytes are left, and again after EOM.
fn write_with_room(script: &mut Script, room: u64) {
    load(script, false);
    script.advance(16_384 - room);
    script.command(WRITE);
    script.report();
    for first in [0x20, 0x21, 0x22] {
        script.record_block(first);
        script.report();
    }
    script.read_back(0);
}

/// Blocks to early warning, two more past it, the closing mark, and all of it back.
fn past_early_warning(script: &mut Script) {
    load(script, false);
    script.command(WRITE);
    while !script.drive().exception {
        script.give_block(0x24);
    }
    script.report();
    script.command(WRITE);
    script.give_block(0x25);
    script.give_block(0x26);
    script.report();
    script.command(WRITE_FILE_MARK);
    script.read_back(0);
}

fn part_then_command(script: &mut Script) {
    load(script, false);
    script.command(WRITE);
    (0..511u16).for_each(|n| script.many(1, &[0x02, n as u8]));
    script.command(WRITE_FILE_MARK);
    script.give(0x99);
    script.command(WRITE_FILE_MARK);
    script.read_back(0);
}

/// A block on tape, then a part of another over it.
fn overwrite(script: &mut Script) {
    load(script, false);
    script.command(WRITE);
    script.give_block(0x30);
    script.lower();
    script.raise();
    script.command(WRITE);
}

fn write_reset(script: &mut Script) {
    overwrite(script);
    script.many(100, &[0x02, 0xAA]);
    script.reset();
    script.read_back(0);
}

fn write_dropped(script: &mut Script) {
    overwrite(script);
    script.lower();
    script.report();
    script.read_back(0);
}

/// Each line of 'Easy to get wrong'.
pub fn easy_to_get_wrong() -> Vec<Case> {
    let easy = |name: &str, moves: fn(&mut Script)| Case::script("easy to get wrong", name, moves);
    vec![
        easy("a cartridge changed between two reports", |script| {
            load(script, false);
            script.change(0, false);
            script.report();
            script.report();
        }),
        easy("an underrun while octets are going out", late_underrun),
        easy("a part block left by RESET", part_left),
        easy("ONLINE fell while not selected", fell_elsewhere),
        easy("a mark written twice", |script| {
            load(script, false);
            script.command(WRITE);
            script.give_block(0x40);
            script.command(WRITE_FILE_MARK);
            script.lower();
            script.read_back(0);
        }),
    ]
}

fn late_underrun(script: &mut Script) {
    load(script, false);
    script.underrun(0);
    script.command(READ_STATUS);
    for n in 0..6 {
        script.underrun(0);
        script.many(n, &[0x09, 0x00]);
        script.take();
    }
    script.report();
    script.report();
}

/// A part block on every drive in turn, then a whole one on the next.
fn part_left(script: &mut Script) {
    for drive in 0..4 {
        script.insert(drive, false);
        script.choose(drive);
        script.command(WRITE);
        script.many(100 + drive as usize, &[0x02, 0xAA]);
        script.reset();
        script.insert(3 - drive, false);
        script.choose(3 - drive);
        script.command(WRITE);
        script.many(512, &[0x02, 0xBB]);
        script.read_back(3 - drive);
    }
}

fn fell_elsewhere(script: &mut Script) {
    for drive in 0..4 {
        script.insert(drive, false);
        script.choose(drive);
        script.command(WRITE_FILE_MARK);
    }
    script.lower();
    for select in SELECT {
        script.command(select);
        script.report();
    }
}
