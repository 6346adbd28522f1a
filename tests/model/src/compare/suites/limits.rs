//! Counters that are full, and tapes that are.

use super::Case;
use crate::commands::*;
use crate::compare::random::Random;
use crate::compare::script::Script;
use crate::replay::TAPE;
use crate::Answer;

/// Both counters up to their largest value and past it.
pub fn counters() -> Vec<Case> {
    let case = |name: &str, moves: fn(&mut Script)| Case::script("counters", name, moves);
    vec![
        case("errors to 65,534, 65,535 and past it", |script| {
            [65_534, 65_535, 65_540].iter().for_each(|&count| counted(script, 0x09, 0, count));
        }),
        case("underruns to 65,534, 65,535 and past it", |script| {
            [65_534, 65_535, 65_540].iter().for_each(|&count| counted(script, 0x0A, 2, count));
        }),
        case("both full on a drive that is not selected", full_elsewhere),
    ]
}

/// So many of one count, then two reports.
fn counted(script: &mut Script, kind: u8, drive: u8, count: usize) {
    script.insert(drive, false);
    script.choose(drive);
    script.many(count, &[kind, drive]);
    script.report();
    script.report();
}

/// Full counters stay when the cartridge is changed and while octets go out, and go by RESET.
fn full_elsewhere(script: &mut Script) {
    script.insert(3, false);
    for _ in 0..65_536 {
        script.error(3);
        script.underrun(3);
    }
    script.change(3, true);
    script.choose(1);
    script.error(3);
    script.choose(3);
    script.report();
    script.error(3);
    script.reset();
    script.choose(3);
}

/// Blocks and marks where the room for them just is or just is not.
pub fn room() -> Vec<Case> {
    let end = TAPE as u64;
    // Room before a block, room after a block, room for a mark.
    let heads = [end - 1542, end - 1541, end - 1540, end - 2055, end - 2054, end - 2053];
    heads
        .into_iter()
        .map(|head| {
            Case::script("room", format!("a block at {head}"), move |script| at_edge(script, head))
        })
        .chain([
            Case::script("room", "all commands at the tape's end", at_end),
            Case::script("room", "data closed at the last byte", at_last_byte),
        ])
        .collect()
}

fn at_edge(script: &mut Script, head: u64) {
    let drive = (head % 4) as u8;
    script.insert(drive, false);
    script.choose(drive);
    script.advance(head);
    script.command(WRITE);
    for _ in 0..3 {
        script.give_block(0x50);
        script.command(READ_STATUS);
        script.settle();
    }
    script.command(WRITE_FILE_MARK);
    script.read_back(drive);
}

/// Every octet that leaves the head there, then those that do not.
fn at_end(script: &mut Script) {
    script.insert(0, false);
    script.choose(0);
    script.advance(TAPE as u64);
    let moving = [BOT, INITIALIZATION, ERASE];
    for octet in (0..=255).filter(|octet| !moving.contains(octet)) {
        script.command(octet);
        script.settle();
        if SELECT.contains(&octet) {
            script.report();
            script.command(SELECT[0]);
        }
        script.report();
    }
    script.lower();
    script.read_back(0);
    for octet in moving {
        script.command(octet);
        script.report();
    }
    script.read_back(0);
}

/// A record that ends one byte before the tape does, over an old mark in that byte.
fn at_last_byte(script: &mut Script) {
    script.insert(2, false);
    script.choose(2);
    for head in [TAPE, TAPE - 1] {
        script.advance(head as u64);
        script.command(READ);
        script.report();
        script.command(BOT);
    }
}

/// Tapes filled to the last byte and taken back whole.
pub fn full_tapes(seed: u64) -> Vec<Case> {
    let case = |name: &str, drive: u8, byte: fn(&mut Random) -> u8| {
        Case::script("full tapes", name, move |script| {
            let mut random = Random::for_case(seed, "full tapes", drive as usize);
            fill(script, drive, || byte(&mut random));
            rewrite(script, drive);
        })
    };
    vec![
        case("any bytes", 0, Random::byte),
        case("zeros", 1, |_| 0x00),
        case("bytes like records", 2, |random| random.pick(&[0x00, 0x01, 0x02, 0x07])),
        case("FF", 3, |_| 0xFF),
        Case::script("full tapes", "marks alone", |script| {
            script.insert(1, false);
            script.choose(1);
            script.many(TAPE + 1, &[0x01, WRITE_FILE_MARK]);
            script.read_back(1);
        }),
    ]
}

/// Blocks until EOM, late ones until there is no room, marks until EOM, and all of it back.
fn fill(script: &mut Script, drive: u8, mut byte: impl FnMut() -> u8) {
    script.insert(drive, false);
    script.choose(drive);
    while script.command(WRITE).answer == Answer::Taken {
        while !script.drive().exception {
            script.give(byte());
        }
        script.report();
    }
    script.report();
    while !script.drive().exception {
        script.command(WRITE_FILE_MARK);
    }
    script.report();
    script.command(WRITE);
    script.read_back(drive);
}

/// Something short over a full tape, and the same after ERASE: what was behind must not show.
fn rewrite(script: &mut Script, drive: u8) {
    script.command(BOT);
    script.command(WRITE);
    script.give_block(0x60);
    script.command(WRITE_FILE_MARK);
    script.read_back(drive);
    script.command(ERASE);
    script.command(READ);
    script.report();
    script.command(WRITE);
    script.give_block(0x61);
    script.lower();
    script.read_back(drive);
}
