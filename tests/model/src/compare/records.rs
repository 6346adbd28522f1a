//! Records and tapes of any kind, the impossible ones among them.

use crate::compare::random::Random;
use crate::state::{Drive, Latched, Mode, Phase, Unit, LONGEST};
use crate::Tapes;

/// A record that is possible more often than not; about one in six is not.
pub fn any_unit(random: &mut Random, tapes: &Tapes) -> Unit {
    let mut unit = Unit {
        selected: if random.chance(980) { random.drive() as u64 } else { any_number(random) },
        online: random.chance(600),
        phase: any_phase(random),
        staging: std::array::from_fn(|_| random.byte()),
        octets: std::array::from_fn(|_| random.byte()),
        drives: std::array::from_fn(|at| any_drive(random, tapes[at].len() as u64)),
    };
    let at = (unit.selected % 4) as usize;
    // Part blocks are rare unless the mode is bent to them.
    if random.chance(950) {
        match unit.phase {
            Phase::Taking(_) => set(random, &mut unit.drives[at], Mode::Writing),
            Phase::Giving(_) => set(random, &mut unit.drives[at], Mode::Reading),
            _ => {}
        }
    }
    unit
}

/// A mode that the drive's cartridge allows.
fn set(random: &mut Random, drive: &mut Drive, mode: Mode) {
    drive.loaded = true;
    drive.protected &= mode != Mode::Writing;
    drive.mode = mode;
    drive.late = any_late(random, mode);
}

/// Numbers at the edges that matter, or any at all.
fn any_number(random: &mut Random) -> u64 {
    match random.among(0..3) {
        0 => random.pick(&[0, 1, 3, 4, 6, 7, 511, 512, 513, 1541, LONGEST, LONGEST + 1]),
        1 => random.pick(&[255, 256, 65_535, 65_536, u32::MAX as u64, u64::MAX - 1541, u64::MAX]),
        _ => random.number(),
    }
}

fn any_phase(random: &mut Random) -> Phase {
    let place = match random.among(0..8) {
        0 => 1,
        1 | 2 => 511,
        _ => random.among(1..512) as u64,
    };
    let place = if random.chance(980) { place } else { any_number(random) };
    let outstanding = random.among(1..7) as u64;
    match random.among(0..8) {
        0 | 1 => Phase::Taking(place),
        2 | 3 => Phase::Giving(place),
        4 => Phase::Status(if random.chance(950) { outstanding } else { any_number(random) }),
        _ => Phase::Rest,
    }
}

/// A drive whose head is near what matters on a tape of this length.
fn any_drive(random: &mut Random, length: u64) -> Drive {
    let near = [0, 1, 513, length, length + 1, length.saturating_sub(random.pick(&EDGES))];
    let head = match random.among(0..20) {
        0 => random.among(0..length as usize + 1) as u64,
        1 if random.chance(100) => any_number(random),
        _ => random.pick(&near),
    };
    let mut bit = || random.chance(200);
    let latched = Latched {
        cni: bit(),
        eom: bit(),
        ude: bit(),
        bnl: bit(),
        fil: bit(),
        ill: bit(),
        ndt: bit(),
        por: bit(),
    };
    let loaded = random.chance(800);
    let protected = loaded && random.chance(200);
    let mode = random.pick(&[Mode::Idle, Mode::Writing, Mode::Reading]);
    let fits = loaded && !(protected && mode == Mode::Writing);
    let mode = if fits || random.chance(10) { mode } else { Mode::Idle };
    Drive {
        loaded,
        protected: protected || random.chance(5),
        head,
        mode,
        late: any_late(random, mode),
        exception: random.chance(250),
        latched,
        errors: random.pick(&[0, 1, 255, 256, 65_534, 65_535]),
        underruns: random.pick(&[0, 1, 255, 256, 65_534, 65_535]),
    }
}

/// Late blocks that fit the mode more often than not.
fn any_late(random: &mut Random, mode: Mode) -> u8 {
    match mode {
        _ if random.chance(10) => random.pick(&[1, 2, 3, 4, 128, 255]),
        Mode::Writing => random.pick(&[0, 1, 2]),
        _ => 0,
    }
}

/// Distances from a tape's end at which an answer changes.
const EDGES: [u64; 16] =
    [0, 1, 2, 512, 513, 514, 515, 1026, 1027, 1028, 1540, 1541, 1542, 2053, 2054, 2055];

/// Four tapes of small lengths, with records, scraps of records, or anything on them.
pub fn any_tapes(random: &mut Random) -> Tapes {
    std::array::from_fn(|_| {
        let length = match random.among(0..3) {
            0 => random.pick(&EDGES) as usize,
            _ => random.among(0..3000),
        };
        let mut tape: Vec<u8> = (0..length).map(|_| random.byte()).collect();
        let mut at = 0;
        // Records one after another, now and then a wrong one, until one lets the scraps show.
        while at < length {
            let unknown = random.pick(&[0x03, 0x07, 0x80, 0xFF]);
            tape[at] = random.pick(&[0x00, 0x01, 0x01, 0x01, 0x02, 0x02, unknown]);
            match tape[at] {
                0x01 => at += 513,
                0x02 => at += 1,
                _ => return tape,
            }
        }
        tape
    })
}

/// Any event, mostly a well-formed one.
pub fn any_event(random: &mut Random) -> Vec<u8> {
    if random.chance(50) {
        return (0..random.among(0..4)).map(|_| random.byte()).collect();
    }
    let codes = [0x01, 0x02, 0x04, 0x08, 0x21, 0x22, 0x24, 0x40, 0x60, 0x80, 0xA0, 0xC0, 0x03];
    match random.among(0..16) {
        0..=4 => vec![0x01, random.pick(&codes)],
        5..=6 => vec![0x02, random.byte()],
        7..=9 => vec![0x03],
        10 => vec![0x04],
        11 => vec![0x05],
        12 => vec![0x06],
        13 => vec![0x07, random.drive() | random.pick(&[0x00, 0x80])],
        14 => vec![0x08, random.drive()],
        _ => vec![random.pick(&[0x09, 0x0A]), random.drive()],
    }
}
