//! Random traces at the end of a tape, where those that go anywhere seldom come.

use crate::commands::*;
use crate::compare::random::Random;
use crate::compare::script::Script;
use crate::replay::TAPE;
use crate::state::{Mode, Phase};
use crate::Outcome;

/// Room to begin with, from where something just fits or just does not.
const ROOMS: [u64; 12] = [513, 514, 515, 1026, 1027, 1028, 1539, 1540, 1541, 1542, 2018, 2019];

/// A trace of at least so many events on a tape that is full up to a mark near its end.
pub fn at_the_end(random: &mut Random, events: usize) -> Vec<u8> {
    let mut script = Script::default();
    let drive = random.drive();
    script.insert(drive, false);
    script.choose(drive);
    script.command(WRITE);
    (0..28).for_each(|n| {
        script.give_block(n);
    });
    script.command(WRITE_FILE_MARK);
    while script.events < events {
        come_back(random, &mut script, drive);
        script.advance(TAPE as u64 - random.pick(&ROOMS));
        let mut moves = random.among(3..12);
        // A drive that was rewound would write over what leads here.
        while moves > 0 && script.unit.selected == drive as u64 && script.drive().head > 0 {
            go(random, &mut script);
            moves -= 1;
        }
    }
    script.read_back(drive);
    script.trace
}

/// Behind the mark again, by RESET or without, and now and then after a look at what is there.
fn come_back(random: &mut Random, script: &mut Script, drive: u8) {
    if random.chance(300) {
        script.reset();
    }
    for looks in [random.chance(200), false] {
        script.choose(drive);
        script.insert(drive, false);
        script.command(BOT);
        script.command(READ_FILE_MARK);
        script.report();
        if !looks {
            return;
        }
        script.read_on();
    }
}

/// One move of the host, or of somebody at the slot.
fn go(random: &mut Random, script: &mut Script) {
    match (script.unit.phase, script.drive().mode) {
        (Phase::Status(_), _) => return script.settle(),
        (Phase::Taking(_), _) if random.chance(800) => return script.settle(),
        (Phase::Taking(_), _) => disturb(random, script),
        _ if script.drive().exception => excepted(random, script),
        (_, Mode::Writing) => between(random, script),
        _ if random.chance(900) => script.command(WRITE),
        _ => disturb(random, script),
    };
}

/// EXCEPTION is up: mostly it is reported.
fn excepted(random: &mut Random, script: &mut Script) -> Outcome {
    match random.among(0..12) {
        0 => script.lower(),
        1 => script.raise(),
        2 => script.command(random.pick(&[WRITE, READ_FILE_MARK, 0x00])),
        _ => script.command(READ_STATUS),
    }
}

/// Between two blocks: the next one, or something else.
fn between(random: &mut Random, script: &mut Script) -> Outcome {
    match random.among(0..16) {
        0..=8 => script.give_block(random.byte()),
        9 => script.give(random.byte()),
        10 | 11 => script.command(READ_STATUS),
        12 => script.command(random.pick(&[WRITE, READ, ERASE, SELECT[0], 0x41])),
        13 => script.command(WRITE_FILE_MARK),
        _ => disturb(random, script),
    }
}

/// What may come at any time.
fn disturb(random: &mut Random, script: &mut Script) -> Outcome {
    let own = script.unit.selected as u8;
    match random.among(0..8) {
        0 | 1 => script.underrun(own),
        2 => script.error(own),
        3 => script.raise(),
        4 | 5 => script.lower(),
        6 => script.pull(own),
        _ => script.reset(),
    }
}
