//! Random traces: some follow the model closely, some are then disturbed, some pay no heed.

use crate::commands::*;
use crate::compare::random::Random;
use crate::compare::script::Script;
use crate::events;
use crate::state::{Mode, Phase, BLOCK};
use crate::tape::{found, Found};

/// Known codes, the one that clears EXCEPTION more often than the rest.
const KNOWN: [u8; 15] = [
    SELECT[0],
    SELECT[1],
    SELECT[2],
    SELECT[3],
    BOT,
    ERASE,
    INITIALIZATION,
    WRITE,
    WRITE_FILE_MARK,
    READ,
    READ_FILE_MARK,
    READ_STATUS,
    READ_STATUS,
    READ_STATUS,
    READ_STATUS,
];
/// What an idle drive may be asked, beside the events that are no commands.
const IDLE: [u8; 8] =
    [WRITE, READ, WRITE_FILE_MARK, READ_FILE_MARK, BOT, INITIALIZATION, ERASE, READ_STATUS];

/// How a trace behaves on the whole; numbers are per mille of its moves, or weights.
struct Temper {
    /// An event that pays no heed comes between.
    stray: usize,
    /// Something happens to any drive.
    aside: usize,
    /// A block is given or taken in one go.
    whole: usize,
    /// A part block is left for good.
    leave: usize,
    /// One block follows the other.
    steady: usize,
    /// IDLE in its order, then SELECT, ONLINE dropped, cartridge changed.
    idle: [usize; 11],
}

impl Temper {
    /// Bytes are many and moves are few unless most blocks are left, so the tempers differ widely.
    fn draw(random: &mut Random) -> Temper {
        let (whole, leave, steady) =
            random.pick(&[(30, 600, 700), (300, 100, 700), (950, 3, 900), (995, 0, 995)]);
        let idle = random.pick(&[
            [80, 5, 5, 1, 1, 1, 0, 2, 2, 1, 1],
            [10, 60, 10, 15, 30, 5, 1, 5, 10, 30, 3],
            [10, 10, 40, 30, 10, 5, 2, 5, 10, 10, 3],
            [20, 20, 10, 10, 10, 5, 4, 10, 40, 20, 20],
        ]);
        let (stray, aside) = (random.pick(&[0, 10, 50, 150]), random.pick(&[5, 50, 200]));
        Temper { stray, aside, whole, leave, steady, idle }
    }
}

/// A trace that is being chosen event by event.
struct Walk<'a> {
    script: Script,
    random: &'a mut Random,
    temper: Temper,
}

/// A trace of at least so many events that mostly does what the unit allows.
pub fn steered(random: &mut Random, events: usize) -> Vec<u8> {
    let mut script = walked(random, events);
    // Whatever went wrong unseen on a tape is seen when all is read back.
    (0..4).for_each(|drive| script.read_back(drive));
    script.trace
}

/// The same without the reading back, to stop in any state.
pub fn steered_part(random: &mut Random, events: usize) -> Vec<u8> {
    walked(random, events).trace
}

fn walked(random: &mut Random, events: usize) -> Script {
    let temper = Temper::draw(random);
    let mut walk = Walk { script: Script::default(), random, temper };
    while walk.script.events < events {
        walk.go();
    }
    walk.script
}

impl Walk<'_> {
    /// One move.
    fn go(&mut self) {
        if self.random.chance(self.temper.stray) {
            let event = stray(self.random);
            self.script.send(&event);
        }
        if self.random.chance(self.temper.aside) {
            self.aside();
        }
        match self.script.unit.phase {
            Phase::Status(outstanding) => {
                let whole = self.random.chance(600);
                self.script.many(if whole { outstanding as usize } else { 1 }, &[0x03]);
            }
            Phase::Taking(_) | Phase::Giving(_) if self.random.chance(self.temper.leave) => {
                self.leave();
            }
            Phase::Taking(n) => self.give(n),
            Phase::Giving(n) => self.take(n),
            Phase::Rest if self.script.drive().exception => self.excepted(),
            Phase::Rest => match self.script.drive().mode {
                Mode::Idle => self.idle(),
                Mode::Writing => self.writing(),
                Mode::Reading => self.reading(),
            },
        }
    }

    /// Something on any drive that the cable need not wait for.
    fn aside(&mut self) {
        let drive = self.random.drive();
        match self.random.among(0..8) {
            0 | 1 => self.script.error(drive),
            2 | 3 => self.script.underrun(drive),
            4 => self.script.pull(drive),
            _ => self.script.insert(drive, self.random.chance(150)),
        };
    }

    /// Ends a part block in one of the two ways there are.
    fn leave(&mut self) {
        if self.random.chance(400) {
            self.script.reset();
        } else {
            self.script.pull(self.script.unit.selected as u8);
        }
    }

    /// EXCEPTION is up: mostly it is reported.
    fn excepted(&mut self) {
        match self.random.among(0..20) {
            0 => self.script.lower(),
            1 => self.script.raise(),
            2 => self.script.command(self.random.pick(&KNOWN)),
            3 => self.script.give(0x5A),
            4 => self.script.take(),
            _ => self.script.command(READ_STATUS),
        };
    }

    /// Nothing is going on: the drive is made ready, or asked for something.
    fn idle(&mut self) {
        let at = self.script.unit.selected as u8;
        if !self.script.drive().loaded && self.random.chance(700) {
            self.script.insert(at, self.random.chance(150));
        } else if !self.script.unit.online && self.random.chance(700) {
            self.script.raise();
        } else if self.data_behind() && self.random.chance(self.temper.idle[1]) {
            self.script.command(BOT);
            self.script.command(READ);
        } else {
            match self.random.weighted(&self.temper.idle) {
                8 => self.script.command(SELECT[self.random.drive() as usize]),
                9 => self.script.lower(),
                10 => self.script.change(at, self.random.chance(150)),
                choice => self.script.command(IDLE[choice]),
            };
        }
    }

    /// The tape begins with a block and the head is past it.
    fn data_behind(&self) -> bool {
        let tape = &self.script.tapes[self.script.unit.selected as usize];
        self.script.drive().head > 0 && found(tape, 0) == Found::Block
    }

    /// Between two blocks that the host gives.
    fn writing(&mut self) {
        if self.random.chance(self.temper.steady) {
            return self.give(0);
        }
        self.turn(WRITE_FILE_MARK);
    }

    /// Between two blocks that the host takes.
    fn reading(&mut self) {
        if self.random.chance(self.temper.steady) {
            return self.take(0);
        }
        self.turn(READ_FILE_MARK);
    }

    /// Something else than the next block.
    fn turn(&mut self, mark: u8) {
        match self.random.weighted(&[40, 20, 20, 20, 5]) {
            0 => self.script.command(mark),
            1 => self.script.command(READ_STATUS),
            2 => self.script.lower(),
            3 => self.script.command(self.random.pick(&KNOWN)),
            _ => self.script.pull(self.script.unit.selected as u8),
        };
    }

    /// How many of the bytes that a block still lacks come now.
    fn burst(&mut self, place: u64) -> usize {
        let left = (BLOCK - place) as usize;
        match self.random.among(0..1000) {
            luck if luck < self.temper.whole => left,
            luck if luck % 16 == 0 => (left - 1).max(1),
            luck if luck % 16 == 1 => self.random.among(1..left + 1),
            _ => self.random.among(1..9).min(left),
        }
    }

    /// Bytes of one block: all alike, counting, like records, or any.
    fn give(&mut self, place: u64) {
        let pattern = self.random.among(0..4);
        let first = self.random.byte();
        for n in 0..self.burst(place) {
            let byte = match pattern {
                0 => first,
                1 => first.wrapping_add(n as u8),
                2 => self.random.pick(&[0x00, 0x01, 0x02, 0x07]),
                _ => self.random.byte(),
            };
            self.script.give(byte);
        }
    }

    fn take(&mut self, place: u64) {
        let count = self.burst(place);
        self.script.many(count, &[0x03]);
    }
}

/// A steered trace in which a few events are lost, doubled, exchanged or replaced.
pub fn disturbed(random: &mut Random, events: usize) -> Vec<u8> {
    let steered = steered(random, events);
    let rate = random.pick(&[1, 3, 10]);
    let mut trace = Vec::with_capacity(steered.len());
    let mut events = events::all(&steered);
    while let Some(event) = events.next() {
        if !random.chance(rate) {
            trace.extend_from_slice(event);
            continue;
        }
        match random.among(0..4) {
            0 => {}
            1 => (0..2).for_each(|_| trace.extend_from_slice(event)),
            2 => {
                trace.extend_from_slice(events.next().unwrap_or(&[]));
                trace.extend_from_slice(event);
            }
            _ => trace.extend_from_slice(&stray(random)),
        }
    }
    trace
}

/// A trace of so many well-formed events that pays no heed to the unit.
pub fn heedless(random: &mut Random, events: usize) -> Vec<u8> {
    let mut trace = Vec::with_capacity(events * 2);
    (0..events).for_each(|_| trace.extend_from_slice(&stray(random)));
    trace
}

/// Any well-formed event.
fn stray(random: &mut Random) -> Vec<u8> {
    let drive = random.drive();
    match random.weighted(&[30, 10, 16, 20, 5, 3, 1, 6, 3, 3, 3]) {
        0 => vec![0x01, random.pick(&KNOWN)],
        1 => vec![0x01, random.byte()],
        2 => vec![0x02, random.byte()],
        3 => vec![0x03],
        4 => vec![0x04],
        5 => vec![0x05],
        6 => vec![0x06],
        7 => vec![0x07, drive | random.pick(&[0x00, 0x00, 0x80])],
        8 => vec![0x08, drive],
        9 => vec![0x09, drive],
        _ => vec![0x0A, drive],
    }
}

/// Bytes that are no event, or an event cut off, to end a trace with.
pub fn malformed(random: &mut Random) -> Vec<u8> {
    match random.among(0..3) {
        0 => vec![random.pick(&[0x01, 0x02, 0x07, 0x08, 0x09, 0x0A])],
        1 => vec![random.pick(&[0x00, 0x0B, 0x20, 0x7F, 0x80, 0xFF]), 0x03, 0x01, 0xC0],
        _ => vec![random.pick(&[0x08, 0x09, 0x0A]), random.pick(&[0x04, 0x80, 0xFF]), 0x06, 0x03],
    }
}
