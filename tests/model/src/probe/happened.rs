//! Names for what an event did, and for how it ended.

use crate::commands::{Command, READ_FILE_MARK};
use crate::probe::frame::Step;
use crate::probe::late::{block, in_late_write};
use crate::probe::reply::Stepped;
use crate::state::{Drive, Mode, Phase, Unit};
use crate::Event;
use std::cmp::Ordering;

/// UDE with BNL, and what UDE alone tells of.
const BNL: &str = "UDE and BNL";
const LONG: &str = "UDE, a block past the end";
const ABOVE: &str = "UDE, a head above the tape";
const AT_END: &str = "UDE, a head at the end";
const NO_DATA: &str = "UDE, end of data";
const A_MARK: &str = "UDE, a mark";

/// What can happen, and how each can end.
pub type Happenings = &'static [(&'static str, &'static [&'static str])];

/// By all events but bytes.
pub const ORDERS: Happenings = &[
    ("SELECT", &["taken", "ILL"]),
    ("BOT", &["taken", "ILL", "CNI"]),
    ("ERASE", &["taken", "ILL", "CNI", "EXCEPTION alone"]),
    ("INITIALIZATION", &["taken", "ILL", "CNI"]),
    ("WRITE", &["taken", "ILL", "CNI", "EXCEPTION alone", "EOM"]),
    ("late WRITE", &["taken"]),
    ("WRITE FILE MARK", &["taken", "ILL", "CNI", "EXCEPTION alone", "EOM"]),
    ("READ", &["taken", "ILL", "CNI", "FIL", "NDT", BNL, LONG, ABOVE]),
    ("READ FILE MARK", &["ILL", "CNI", "FIL", "NDT", BNL, LONG, ABOVE]),
    ("READ FILE MARK, blocks passed", &["FIL", "NDT", BNL, LONG]),
    ("READ STATUS", &["taken"]),
    ("unknown code", &["ILL"]),
    ("ONLINE raised", &["taken"]),
    ("low level repeated", &["taken"]),
    ("ONLINE dropped, a mark recorded", &["taken"]),
    ("ONLINE dropped", &["taken", "EOM"]),
    ("RESET", &["POR"]),
    ("cartridge in", &["taken"]),
    ("cartridge out", &["CNI"]),
    ("error", &["taken"]),
    ("underrun", &["taken"]),
    ("READ STATUS in a late WRITE", &["taken"]),
    ("WRITE FILE MARK in a late WRITE", &["taken", "ILL", "EOM"]),
    ("any other order in a late WRITE", &["ILL"]),
    ("ONLINE dropped in a late WRITE, a mark recorded", &["taken"]),
    ("ONLINE dropped in a late WRITE", &["taken", "EOM"]),
    ("RESET in a late WRITE", &["POR"]),
    ("cartridge out in a late WRITE", &["CNI"]),
];

/// By a byte given or taken.
pub const BYTES: Happenings = &[
    ("byte of a block given", &["taken"]),
    ("byte of a late block given", &["taken"]),
    ("block recorded", &["taken", "EOM"]),
    ("block not recorded", &["EOM"]),
    ("first late block recorded", &["taken"]),
    ("first late block recorded, no room for another", &["EOM"]),
    ("first late block recorded, room for an ordinary one", &["taken"]),
    ("second late block recorded, room for another", &["EOM"]),
    ("second late block recorded, no room for another", &["EOM"]),
    ("second late block recorded, room for an ordinary one", &["EOM"]),
    ("late block not recorded", &["EOM"]),
    ("block not recorded, room for a late one", &["EOM"]),
    ("octet", &["taken"]),
    ("first byte of a block", &["taken", "FIL", "NDT", BNL, LONG, ABOVE]),
    ("byte inside a block", &["taken"]),
    ("byte 512 of a block", &["taken", "FIL", "NDT", BNL, LONG]),
];

/// By a byte taken inside a block that is none any more.
pub const SPOILT: Happenings =
    &[("byte inside a block", &[BNL, LONG, ABOVE, AT_END, NO_DATA, A_MARK])];

/// What an event that was taken did, and how it ended; it is the only one of its frame, or the
/// last of many.
pub fn happened(
    before: &Unit,
    after: &Unit,
    event: Event,
    step: &Step,
    stepped: &Stepped,
) -> (&'static str, &'static str) {
    let at = match event {
        Event::CartridgeOut(at) => at,
        _ => before.selected as usize,
    };
    let (old, new) = (&before.drives[at], &after.drives[at]);
    let what = match event {
        Event::Command(READ_FILE_MARK) if new.head > old.head + 1 => {
            "READ FILE MARK, blocks passed"
        }
        Event::Command(_) if new.late > old.late => "late WRITE",
        Event::Command(octet) => Command::of(octet).map_or("unknown code", order),
        Event::Give(_) if before.phase != Phase::Taking(511) => "byte of a block given",
        Event::Give(_) => block(old, new, step.tapes[at].length.into()),
        Event::Take => taken(before.phase, stepped.result[1] == 1),
        Event::OnlineRaised => "ONLINE raised",
        Event::OnlineDropped if !before.online => "low level repeated",
        Event::OnlineDropped => dropped(old, stepped.result[0]),
        Event::Reset => "RESET",
        Event::CartridgeIn { .. } => "cartridge in",
        Event::CartridgeOut(_) => "cartridge out",
        Event::Error(_) => "error",
        Event::Underrun(_) => "underrun",
    };
    let what = if old.late > 0 { in_late_write(what) } else { what };
    match ending(old, new, stepped.result[0]) {
        "UDE" => (what, cause(step, stepped, at, new.head)),
        ended => (what, ended),
    }
}

/// What stands at a head where UDE came alone.
fn cause(step: &Step, stepped: &Stepped, at: usize, head: u64) -> &'static str {
    match head.cmp(&step.tapes[at].length.into()) {
        Ordering::Greater => ABOVE,
        Ordering::Equal => AT_END,
        Ordering::Less => match stepped.tapes[at].at(head as usize) {
            0x00 => NO_DATA,
            0x01 => LONG,
            0x02 => A_MARK,
            // Never: BNL comes with it.
            _ => "UDE, an unknown kind",
        },
    }
}

fn order(command: Command) -> &'static str {
    match command {
        Command::Select(_) => "SELECT",
        Command::Bot => "BOT",
        Command::Erase => "ERASE",
        Command::Initialization => "INITIALIZATION",
        Command::Write => "WRITE",
        Command::WriteFileMark => "WRITE FILE MARK",
        Command::Read => "READ",
        Command::ReadFileMark => "READ FILE MARK",
        Command::ReadStatus => "READ STATUS",
    }
}

fn taken(phase: Phase, byte: bool) -> &'static str {
    match phase {
        Phase::Status(_) => "octet",
        Phase::Giving(511) if byte => "byte 512 of a block",
        Phase::Giving(_) => "byte inside a block",
        _ => "first byte of a block",
    }
}

fn dropped(drive: &Drive, answer: u8) -> &'static str {
    match drive.mode {
        Mode::Writing if !drive.exception && answer == 0 => "ONLINE dropped, a mark recorded",
        _ => "ONLINE dropped",
    }
}

/// The bit that was latched and was not before; with BNL up before, UDE does not tell its cause.
fn ending(before: &Drive, after: &Drive, answer: u8) -> &'static str {
    let (old, new) = (&before.latched, &after.latched);
    let bits = [
        (old.cni, new.cni, "CNI"),
        (old.eom, new.eom, "EOM"),
        (old.ude || old.bnl, new.ude && new.bnl, BNL),
        (old.ude || old.bnl, new.ude, "UDE"),
        (old.fil, new.fil, "FIL"),
        (old.ill, new.ill, "ILL"),
        (old.ndt, new.ndt, "NDT"),
        (old.por, new.por, "POR"),
    ];
    let latched = bits.iter().find(|(old, new, _)| !old && *new);
    match latched {
        _ if answer == 0 => "taken",
        Some((_, _, name)) => name,
        None if bits.iter().any(|(old, _, _)| *old) => "a bit that was latched",
        None => "EXCEPTION alone",
    }
}
