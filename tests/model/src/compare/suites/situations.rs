//! Every state that `replay` can reach but those in a late WRITE, and how it is reached.
//!
//! Writing or Reading with ONLINE low is not among them: whatever lowers the level ends both.

use crate::commands::*;
use crate::compare::script::Script;

/// A state: what is on tape, and the moves from a rewound, loaded, calm drive to it.
pub struct Situation {
    pub name: &'static str,
    /// b for a block, m for a mark.
    pub records: &'static str,
    pub moves: fn(&mut Script, u8),
}

const fn situation(
    name: &'static str,
    records: &'static str,
    moves: fn(&mut Script, u8),
) -> Situation {
    Situation { name, records, moves }
}

/// Every state, the first word being the mode.
pub const SITUATIONS: [Situation; 38] = [
    situation("idle", "", |_, _| {}),
    situation("idle, offline", "", |s, _| {
        s.lower();
    }),
    situation("idle, exception", "", |s, _| {
        s.command(0x00);
    }),
    situation("idle, exception, offline", "", |s, _| {
        s.command(0x00);
        s.lower();
    }),
    situation("idle, protected", "b", |s, d| plugged(s, d, true)),
    situation("idle, protected, offline", "b", |s, d| {
        plugged(s, d, true);
        s.lower();
    }),
    situation("idle, protected, exception", "b", |s, d| {
        plugged(s, d, true);
        s.command(WRITE);
    }),
    situation("idle, protected, exception, offline", "b", |s, d| {
        plugged(s, d, true);
        s.command(ERASE);
        s.lower();
    }),
    situation("idle, empty drive", "b", |s, d| emptied(s, d, true)),
    situation("idle, empty drive, offline", "b", |s, d| {
        emptied(s, d, true);
        s.lower();
    }),
    situation("idle, empty drive, exception", "b", |s, d| emptied(s, d, false)),
    situation("idle, empty drive, exception, offline", "b", |s, d| {
        emptied(s, d, false);
        s.lower();
    }),
    situation("idle, cartridge changed", "b", |s, d| {
        s.change(d, false);
    }),
    situation("idle, block ahead", "bmb", |_, _| {}),
    situation("idle, block ahead, offline", "bmb", |s, _| {
        s.lower();
    }),
    situation("idle, mark ahead", "mb", |_, _| {}),
    situation("idle, after a block", "bb", |s, _| {
        after_block(s);
        s.calm_here();
    }),
    situation("idle, after a mark", "bmb", |s, _| {
        s.command(READ_FILE_MARK);
        s.report();
    }),
    situation("idle, offline, not rewound", "bmb", |s, _| {
        s.command(READ_FILE_MARK);
        s.lower();
        s.report();
    }),
    situation("idle, at end of data", "b", |s, _| {
        after_block(s);
        s.report();
    }),
    situation("idle, at end of data, exception", "b", |s, _| after_block(s)),
    situation("writing", "", |s, _| {
        s.command(WRITE);
    }),
    situation("writing, exception", "", |s, _| {
        s.command(WRITE);
        s.command(READ);
    }),
    situation("writing over a block", "b", |s, _| {
        s.command(WRITE);
    }),
    situation("writing, inside a block", "b", |s, _| {
        s.command(WRITE);
        s.give(0x11);
    }),
    situation("writing, status", "", |s, _| {
        s.command(WRITE);
        s.command(READ_STATUS);
    }),
    situation("writing, last octet", "", |s, _| {
        s.command(WRITE);
        last_octet(s);
    }),
    situation("reading", "bb", |s, _| {
        s.command(READ);
    }),
    situation("reading, exception", "bb", |s, _| {
        s.command(READ);
        s.command(WRITE);
    }),
    situation("reading, after a block", "bbm", |s, _| after_block(s)),
    situation("reading, inside a block", "bb", |s, _| {
        s.command(READ);
        s.take();
    }),
    situation("reading, protected", "bm", |s, d| {
        plugged(s, d, true);
        s.command(READ);
    }),
    situation("reading, status", "bb", |s, _| {
        s.command(READ);
        s.command(READ_STATUS);
    }),
    situation("reading, last octet", "bb", |s, _| {
        s.command(READ);
        last_octet(s);
    }),
    situation("idle, status", "", |s, _| {
        s.command(READ_STATUS);
    }),
    situation("idle, status, offline", "", |s, _| {
        s.lower();
        last_octet(s);
    }),
    situation("idle, status, exception", "", |s, d| {
        s.command(READ_STATUS);
        s.pull(d);
    }),
    situation("idle, status, exception, offline", "", |s, d| {
        s.lower();
        s.command(READ_STATUS);
        s.pull(d);
    }),
];

/// Another cartridge, and its change reported.
fn plugged(script: &mut Script, drive: u8, protected: bool) {
    script.change(drive, protected);
    script.report();
}

/// No cartridge, and that reported or not.
fn emptied(script: &mut Script, drive: u8, reported: bool) {
    script.pull(drive);
    if reported {
        script.report();
    }
}

fn after_block(script: &mut Script) {
    script.command(READ);
    script.take_block();
}

fn last_octet(script: &mut Script) {
    script.command(READ_STATUS);
    script.many(5, &[0x03]);
}
