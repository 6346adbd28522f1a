//! Past early warning: late WRITEs with all the room that they may find, and in every state.

use super::Case;
use crate::commands::*;
use crate::compare::script::Script;
use crate::replay::TAPE;
use crate::state::Phase;

/// Room at which a block, the next one or the one after that just fits or just does not.
const ROOMS: [u64; 10] = [513, 514, 515, 1026, 1027, 1028, 1539, 1540, 1541, 2054];

/// WRITEs one after another until there is no more room, the closing mark, and all of it back.
pub fn rooms() -> Vec<Case> {
    let case = |room: u64| {
        Case::script("past early warning", format!("room of {room}"), move |script| {
            let drive = (room % 4) as u8;
            script.insert(drive, false);
            script.choose(drive);
            script.advance(TAPE as u64 - room);
            close_trial(script);
            script.read_back(drive);
        })
    };
    ROOMS.into_iter().map(case).collect()
}

/// A block, or one byte where it is not taken.
fn block(script: &mut Script, first: u8) {
    script.give(first);
    script.settle();
}

/// Blocks in one WRITE after another until one is refused at once, the mark that closes all, and
/// a WRITE behind it.
fn close_trial(script: &mut Script) {
    for trial in 0..3 {
        script.command(WRITE);
        // One block more than any WRITE may take here: its first byte is out of step.
        (0..3).for_each(|n| block(script, 0x40 * trial + n));
        script.calm_here();
    }
    for order in [WRITE_FILE_MARK, WRITE] {
        script.command(order);
        script.calm_here();
    }
}

/// A state in a late WRITE, reached from where the WRITE was just taken.
struct State {
    name: &'static str,
    /// It takes so few events that every octet can be tried in it.
    near: bool,
    moves: fn(&mut Script),
}

const fn near(name: &'static str, moves: fn(&mut Script)) -> State {
    State { name, near: true, moves }
}

const fn far(name: &'static str, moves: fn(&mut Script)) -> State {
    State { name, near: false, moves }
}

static STATES: [State; 8] = [
    near("at rest", |_| {}),
    near("exception", |script| {
        script.command(READ);
    }),
    near("inside a block", |script| {
        script.give(0x11);
    }),
    near("status", |script| {
        script.command(READ_STATUS);
    }),
    far("after a block", |script| {
        script.give_block(0x12);
    }),
    far("after a block, exception", |script| {
        script.give_block(0x13);
        script.command(ERASE);
    }),
    far("at the end of the second block", |script| {
        script.give_block(0x14);
        script.many(511, &[0x02, 0x15]);
    }),
    far("after a block, last octet", |script| {
        script.give_block(0x16);
        script.command(READ_STATUS);
        script.many(5, &[0x03]);
    }),
];

/// A tape full of blocks up to a mark, behind which the drive comes back again and again: what a
/// late WRITE left there is written over.
struct Stage {
    script: Script,
    drive: u8,
    state: &'static State,
}

impl Stage {
    /// Room for two late blocks behind the mark, and not for an ordinary one.
    fn new(number: usize) -> Stage {
        let mut script = Script::default();
        let drive = (number % 4) as u8;
        script.insert(drive, false);
        script.choose(drive);
        script.command(WRITE);
        while !script.drive().exception {
            script.give_block(number as u8);
        }
        script.report();
        script.command(WRITE_FILE_MARK);
        Stage { script, drive, state: &STATES[number] }
    }

    /// The state, from any other.
    fn set(&mut self) {
        self.behind_the_mark();
        self.script.command(WRITE);
        (self.state.moves)(&mut self.script);
    }

    fn behind_the_mark(&mut self) {
        let script = &mut self.script;
        script.reset();
        script.choose(self.drive);
        script.insert(self.drive, false);
        script.command(READ_FILE_MARK);
        script.report();
    }

    /// The unknown octets are followed by a report, the known ones by all that shows.
    fn order(&mut self, octet: u8) {
        self.set();
        self.script.command(octet);
        if Command::of(octet).is_some() {
            self.look();
        } else if self.script.unit.phase == Phase::Rest {
            self.script.report();
        }
    }

    fn other(&mut self, event: &[u8]) {
        self.set();
        self.script.send(event);
        self.look();
    }

    /// Shows by two blocks how many are still allowed, and by reading what was recorded.
    fn look(&mut self) {
        let script = &mut self.script;
        script.take();
        script.settle();
        script.report();
        (0..2).for_each(|n| block(script, 0x80 + n));
        self.behind_the_mark();
        self.script.read_on();
    }
}

/// All octets, and all other events on every drive, in each state.
pub fn states() -> Vec<Case> {
    let case = |number: usize| {
        Case::new("late WRITE", STATES[number].name, move || {
            let mut stage = Stage::new(number);
            octets(stage.state).for_each(|octet| stage.order(octet));
            for event in [&[0x02, 0xA5][..], &[0x03], &[0x04], &[0x05], &[0x06]] {
                stage.other(event);
            }
            for kind in 0x07..=0x0A {
                (0..4).for_each(|drive| stage.other(&[kind, drive]));
            }
            stage.script.trace
        })
    };
    (0..STATES.len()).map(case).collect()
}

/// All octets, or the known ones and few others.
fn octets(state: &State) -> impl Iterator<Item = u8> {
    let all = state.near;
    (0..=255).filter(move |&octet| all || octet < 0x04 || Command::of(octet).is_some())
}
