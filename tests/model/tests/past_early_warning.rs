//! The traces past early warning reach what they are meant to reach.

use model::commands::*;
use model::compare::suites::{self, walk};
use model::{Answer, Event, Outcome, Phase, Unit};
use std::collections::BTreeSet;

/// What becomes of a WRITE past early warning, and of a late block.
fn late_happenings(before: &Unit, event: &[u8], outcome: &Outcome, after: &Unit) -> Option<String> {
    let at = before.selected as usize;
    let (old, new) = (&before.drives[at], &after.drives[at]);
    let taken = outcome.answer == Answer::Taken;
    let room = 16_384 - new.head;
    match Event::of(event)? {
        Event::Command(WRITE) if taken && new.late > 0 => Some(format!("WRITE with {room}")),
        Event::Command(WRITE) if new.latched.eom && !old.exception => {
            Some(format!("no WRITE with {room}"))
        }
        Event::Give(_) if old.late > 0 && before.phase == Phase::Taking(511) => {
            let ended = if taken { "goes on" } else { "EOM" };
            Some(format!("block of {} {ended} with {room}", old.late))
        }
        _ => None,
    }
}

#[test]
fn late_writes_find_all_the_room_that_they_may_find() {
    let mut seen = BTreeSet::new();
    let mut cases = suites::all(3, 0);
    cases.retain(|case| case.suite == "past early warning");
    walk(&cases, |before, event, outcome, after| {
        seen.extend(late_happenings(before, event, outcome, after));
    });
    for wanted in [
        "WRITE with 514",
        "WRITE with 515",
        "WRITE with 1026",
        "WRITE with 1027",
        "WRITE with 1539",
        "WRITE with 1540",
        "no WRITE with 0",
        "no WRITE with 1",
        "no WRITE with 513",
        "block of 2 goes on with 514",
        "block of 2 EOM with 513",
        "block of 2 EOM with 1",
        "block of 2 goes on with 1027",
        "block of 1 EOM with 514",
        "block of 1 EOM with 513",
        "block of 1 EOM with 1",
    ] {
        assert!(seen.contains(wanted), "{wanted}: {seen:#?}");
    }
}
