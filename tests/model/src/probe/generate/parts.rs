//! What generators make frames of: records, tapes, and what is done at a head.

use crate::commands::*;
use crate::compare::random::Random;
use crate::probe::codec;
use crate::probe::frame::{Asked, Frame, Lent, Step};
use crate::state::{Drive, Latched, Mode, Phase, Unit, LONGEST};

/// A record and its tapes, before the event.
#[derive(Clone)]
pub struct Setting {
    pub unit: Unit,
    pub tapes: [Lent; 4],
    /// Late blocks that the selected drive gets wherever it is made to write.
    pub late: u8,
}

/// Something done to the selected drive: its mode, the phase, and the event.
#[derive(Clone, Copy)]
pub struct Act(pub Mode, pub Phase, pub &'static [u8]);

use Mode::{Idle, Reading, Writing};
use Phase::{Giving, Rest, Taking};

/// All that looks at a tape through the eyes of a reader.
pub const READING: [Act; 8] = [
    Act(Idle, Rest, &[0x01, READ]),
    Act(Idle, Rest, &[0x01, READ_FILE_MARK]),
    Act(Reading, Rest, &[0x01, READ_FILE_MARK]),
    Act(Reading, Rest, &[0x03]),
    Act(Reading, Giving(1), &[0x03]),
    Act(Reading, Giving(510), &[0x03]),
    Act(Reading, Giving(511), &[0x03]),
    Act(Reading, Rest, &[0x05]),
];

/// All else that asks where the head stands.
const OTHERS: [Act; 10] = [
    Act(Idle, Rest, &[0x01, WRITE]),
    Act(Idle, Rest, &[0x01, WRITE_FILE_MARK]),
    Act(Writing, Rest, &[0x01, WRITE_FILE_MARK]),
    Act(Writing, Rest, &[0x02, 0x5A]),
    Act(Writing, Taking(511), &[0x02, 0xA5]),
    Act(Writing, Rest, &[0x05]),
    Act(Idle, Rest, &[0x05]),
    Act(Idle, Rest, &[0x01, ERASE]),
    Act(Idle, Rest, &[0x01, BOT]),
    Act(Idle, Rest, &[0x01, READ_STATUS]),
];

/// Both.
pub fn acts() -> Vec<Act> {
    READING.into_iter().chain(OTHERS).collect()
}

/// Bytes of any value.
pub fn noise(random: &mut Random, count: usize) -> Vec<u8> {
    let mut bytes = Vec::with_capacity(count + 8);
    while bytes.len() < count {
        bytes.extend(random.number().to_le_bytes());
    }
    bytes.truncate(count);
    bytes
}

/// A kind byte that no record has, often an edge of them.
pub fn unknown(random: &mut Random) -> u8 {
    let any = random.byte().max(0x03);
    random.pick(&[0x03, 0x80, 0xFF, any])
}

/// A tape of noise where a head at this place can see; these kinds stand at it and past each block.
pub fn around<const N: usize>(
    random: &mut Random,
    length: usize,
    head: u64,
    kinds: [u8; N],
) -> Lent {
    let head = length.min(head.try_into().unwrap_or(usize::MAX));
    let (from, to) = (head.saturating_sub(4), length.min(head + 513 * N + 14));
    let mut given = noise(random, to - from);
    for (place, kind) in (head..).step_by(513).zip(kinds) {
        if place < to {
            given[place - from] = kind;
        }
    }
    Lent { length: length as u32, at: from as u32, given }
}

/// A tape with records from its first byte on, most often whole ones.
pub fn written(random: &mut Random, length: usize) -> Lent {
    let mut given = noise(random, length);
    let mut at = 0;
    while at < length {
        let unknown = unknown(random);
        given[at] = random.pick(&[0x00, 0x01, 0x01, 0x01, 0x01, 0x02, 0x02, unknown]);
        match given[at] {
            0x01 => at += 513,
            0x02 => at += 1,
            _ => break,
        }
    }
    Lent { length: length as u32, at: 0, given }
}

/// A short tape for a drive that is not looked at.
pub fn scrap(random: &mut Random) -> Lent {
    let length = random.pick(&[0, 0, 1, 2, 7, 40]);
    Lent { length: length as u32, at: 0, given: noise(random, length) }
}

/// A drive that can be, at any place.
pub fn drive(random: &mut Random) -> Drive {
    let (loaded, protected) =
        random.pick(&[(false, false), (true, true), (true, false), (true, false)]);
    let modes = [Idle, Reading, Writing];
    let fitting = if protected { 2 } else { 3 };
    let bits = random.number();
    let bit = |place: u32| bits >> place & 3 == 0;
    let mode = if loaded { random.pick(&modes[..fitting]) } else { Idle };
    Drive {
        loaded,
        protected,
        head: match random.among(0..4) {
            0 => 0,
            1 => random.pick(&[1, 512, 513, 514, LONGEST - 1, LONGEST]),
            _ => random.among(0..5000) as u64,
        },
        mode,
        late: fitting_late(mode, some_late(random)),
        exception: bit(0),
        latched: Latched {
            cni: bit(2),
            eom: bit(4),
            ude: bit(6),
            bnl: bit(8),
            fil: bit(10),
            ill: bit(12),
            ndt: bit(14),
            por: bit(16),
        },
        errors: count(random),
        underruns: count(random),
    }
}

/// Late blocks as a drive that is Writing can have them.
pub fn some_late(random: &mut Random) -> u8 {
    random.pick(&[0, 0, 1, 2])
}

/// So many in Writing, none in another mode.
pub fn fitting_late(mode: Mode, late: u8) -> u8 {
    if mode == Writing {
        late
    } else {
        0
    }
}

/// A counter near its end, or anywhere.
fn count(random: &mut Random) -> u16 {
    match random.among(0..3) {
        0 => random.pick(&[0, 1, 254, 255, 256, 65_534, 65_535]),
        _ => random.number() as u16,
    }
}

impl Setting {
    /// A record that can be, at Rest, and scraps of tapes.
    pub fn new(random: &mut Random) -> Setting {
        let staging = noise(random, 512).try_into().expect("so many were made");
        let unit = Unit {
            selected: random.drive() as u64,
            online: random.chance(700),
            phase: Rest,
            staging,
            octets: std::array::from_fn(|_| random.byte()),
            drives: std::array::from_fn(|_| drive(random)),
        };
        let tapes = std::array::from_fn(|_| scrap(random));
        Setting { unit, tapes, late: some_late(random) }
    }

    /// The place of the selected drive; of drive 0 where the number is too large.
    pub fn at(&self) -> usize {
        usize::try_from(self.unit.selected).ok().filter(|&at| at < 4).unwrap_or(0)
    }

    pub fn drive(&mut self) -> &mut Drive {
        let at = self.at();
        &mut self.unit.drives[at]
    }

    /// A tape for the selected drive.
    pub fn lend(&mut self, tape: Lent) {
        self.tapes[self.at()] = tape;
    }

    /// The selected drive in a mode with the cartridge that it asks for, no EXCEPTION, ONLINE up.
    pub fn go(&mut self, mode: Mode) {
        self.unit.online = true;
        let late = fitting_late(mode, self.late);
        let drive = self.drive();
        let open = Drive { loaded: true, protected: false, ..drive.clone() };
        *drive = Drive { mode, late, exception: false, ..open };
    }

    /// The selected drive ready for an act, with its head here.
    pub fn ready(&mut self, act: Act, head: u64) {
        self.go(act.0);
        self.unit.phase = act.1;
        self.drive().head = head;
    }

    /// The frame that sends an event.
    pub fn with(self, event: &[u8]) -> Frame {
        Frame::Step(self.step(Asked::Event(event.to_vec())))
    }

    /// The call that asks for this.
    pub fn step(self, asked: Asked) -> Step {
        Step { record: codec::encode(&self.unit), tapes: self.tapes, asked }
    }
}
