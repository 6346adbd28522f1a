//! Names for what an event did to a block, and for what it did in a late WRITE.

use crate::state::{Drive, LATE_BLOCKS, LATE_ROOM, ROOM};

/// For what a head leaves room, on a tape of this length.
enum Left {
    Ordinary,
    Late,
    Nothing,
}

fn left(head: u64, length: u64) -> Left {
    match length.saturating_sub(head) {
        ROOM.. => Left::Ordinary,
        LATE_ROOM.. => Left::Late,
        _ => Left::Nothing,
    }
}

/// What a 512th byte did.
pub fn block(before: &Drive, after: &Drive, length: u64) -> &'static str {
    let recorded = before.head != after.head;
    match (before.late, recorded, left(after.head, length)) {
        (0, true, _) => "block recorded",
        (0, false, Left::Late) => "block not recorded, room for a late one",
        (0, false, _) => "block not recorded",
        (_, false, _) => "late block not recorded",
        (LATE_BLOCKS, true, Left::Ordinary) => {
            "first late block recorded, room for an ordinary one"
        }
        (LATE_BLOCKS, true, Left::Late) => "first late block recorded",
        (LATE_BLOCKS, true, Left::Nothing) => "first late block recorded, no room for another",
        (_, true, Left::Ordinary) => "second late block recorded, room for an ordinary one",
        (_, true, Left::Late) => "second late block recorded, room for another",
        (_, true, Left::Nothing) => "second late block recorded, no room for another",
    }
}

/// The name of the same in a late WRITE, where that is asked for by itself.
pub fn in_late_write(what: &'static str) -> &'static str {
    match what {
        "READ STATUS" => "READ STATUS in a late WRITE",
        "WRITE FILE MARK" => "WRITE FILE MARK in a late WRITE",
        "SELECT" | "BOT" | "ERASE" | "INITIALIZATION" | "WRITE" | "READ" | "READ FILE MARK"
        | "unknown code" => "any other order in a late WRITE",
        "byte of a block given" => "byte of a late block given",
        "ONLINE dropped, a mark recorded" => "ONLINE dropped in a late WRITE, a mark recorded",
        "ONLINE dropped" => "ONLINE dropped in a late WRITE",
        "RESET" => "RESET in a late WRITE",
        "cartridge out" => "cartridge out in a late WRITE",
        _ => what,
    }
}
