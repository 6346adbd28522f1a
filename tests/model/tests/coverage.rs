//! The traces reach what they are meant to reach.

use model::commands::*;
use model::compare::suites::{self, walk, Case};
use model::{events, Answer, Event, Mode, Outcome, Phase, Unit};
use std::collections::{BTreeMap, BTreeSet};

fn cases(suite: &str, events: usize) -> Vec<Case> {
    let mut cases = suites::all(3, events);
    cases.retain(|case| case.suite == suite);
    cases
}

/// The cases of suites that need no random traces.
fn of_suites(suites: &[&str]) -> Vec<Case> {
    suites.iter().flat_map(|suite| cases(suite, 0)).collect()
}

/// Mode, ONLINE, phase and EXCEPTION of the selected drive, in a word.
fn state(unit: &Unit) -> String {
    let drive = &unit.drives[unit.selected as usize];
    let phase = match unit.phase {
        Phase::Rest => "rest",
        Phase::Taking(_) => "inside a block given",
        Phase::Giving(_) => "inside a block taken",
        Phase::Status(_) => "status",
    };
    let late = if drive.late > 0 { " late" } else { "" };
    let online = if unit.online { "online" } else { "offline" };
    let exception = if drive.exception { ", exception" } else { "" };
    format!("{:?}{late}, {phase}, {online}{exception}", drive.mode)
}

/// All that a run from a fresh unit can reach.
const STATES: [&str; 20] = [
    "Idle, rest, online",
    "Idle, rest, offline",
    "Idle, rest, online, exception",
    "Idle, rest, offline, exception",
    "Idle, status, online",
    "Idle, status, offline",
    "Idle, status, online, exception",
    "Idle, status, offline, exception",
    "Writing, rest, online",
    "Writing, rest, online, exception",
    "Writing, inside a block given, online",
    "Writing, status, online",
    "Writing late, rest, online",
    "Writing late, rest, online, exception",
    "Writing late, inside a block given, online",
    "Writing late, status, online",
    "Reading, rest, online",
    "Reading, rest, online, exception",
    "Reading, inside a block taken, online",
    "Reading, status, online",
];

#[test]
fn every_octet_comes_in_every_state() {
    let mut seen = BTreeMap::<String, BTreeSet<u8>>::new();
    walk(&of_suites(&["commands", "late WRITE"]), |before, event, _, _| {
        if let Some(Event::Command(octet)) = Event::of(event) {
            seen.entry(state(before)).or_default().insert(octet);
        }
    });
    assert_eq!(seen.keys().map(String::as_str).collect::<BTreeSet<_>>(), STATES.into());
    for (state, octets) in seen {
        assert_eq!(octets.len(), 256, "{state}");
    }
}

#[test]
fn every_other_event_comes_in_every_state() {
    let mut seen = BTreeMap::<String, BTreeSet<Vec<u8>>>::new();
    walk(&of_suites(&["other events", "late WRITE"]), |before, event, _, _| {
        if !matches!(Event::of(event), Some(Event::Command(_) | Event::Give(_))) {
            seen.entry(state(before)).or_default().insert(event.to_vec());
        }
    });
    for state in STATES {
        // Take, ONLINE up and down, RESET, and four events on four drives.
        assert!(seen[state].len() >= 4 + 16, "{state}: {:?}", seen[state]);
    }
}

#[test]
fn no_trace_reaches_another_state() {
    walk(&suites::all(3, 400_000), |before, _, _, _| {
        let state = state(before);
        assert!(STATES.contains(&state.as_str()), "{state}");
    });
}

#[test]
fn every_kind_every_drive_body_and_every_cut_is_answered() {
    let mut kinds = BTreeSet::new();
    let mut bodies = BTreeSet::new();
    let mut cuts = BTreeSet::new();
    walk(&cases("kinds", 0), |_, event, _, _| {
        kinds.insert(event[0]);
    });
    walk(&cases("drive bodies", 0), |_, event, _, _| {
        if event.len() == 2 && (0x07..=0x0A).contains(&event[0]) {
            bodies.insert(event.to_vec());
        }
    });
    let mut last = None;
    walk(&cases("cut off", 0), |_, event, outcome, _| {
        if outcome.answer == Answer::Malformed {
            assert_eq!(event.len(), 1);
            cuts.insert((event[0], last.take()));
        } else {
            last = Some(event[0]);
        }
    });
    assert_eq!((kinds.len(), bodies.len()), (256, 4 * 256));
    for kind in [0x01, 0x02, 0x07, 0x08, 0x09, 0x0A] {
        assert!(cuts.contains(&(kind, None)));
        assert!((0x01..=0x0A).all(|before| cuts.contains(&(kind, Some(before)))));
    }
}

#[test]
fn counters_and_tapes_get_full() {
    let (mut errors, mut underruns) = (false, false);
    walk(&cases("counters", 0), |before, _, _, after| {
        errors |= before.octets != after.octets && after.octets[2..4] == [0xFF, 0xFF];
        underruns |= before.octets != after.octets && after.octets[4..6] == [0xFF, 0xFF];
    });
    assert!(errors && underruns);
    let (mut ends, mut taken) = (0, 0);
    walk(&cases("full tapes", 0), |_, event, outcome, after| {
        ends += (after.drives[after.selected as usize].head == 16_384) as usize;
        taken += (event == [0x03] && outcome.byte.is_some()) as usize;
    });
    assert!(ends > 10 && taken > 4 * 31 * 512);
}

/// Two words, the second one for a late WRITE.
fn or_late(late: u8, words: [&'static str; 2]) -> Option<&'static str> {
    Some(words[(late > 0) as usize])
}

/// Where a cartridge is pulled, told by a word.
fn pulled(before: &Unit, at: usize) -> &'static str {
    match (at as u64 == before.selected, before.phase) {
        (true, Phase::Rest) => "pulled at rest",
        (true, Phase::Status(_)) => "pulled in status",
        (true, _) => "pulled in a block",
        _ => "pulled elsewhere",
    }
}

/// A thing that happens, told by a word.
fn word(before: &Unit, event: &[u8], outcome: &Outcome, after: &Unit) -> Option<&'static str> {
    let drive = &before.drives[before.selected as usize];
    let taken = outcome.answer == Answer::Taken;
    match Event::of(event)? {
        Event::Command(WRITE) if taken => {
            or_late(after.drives[before.selected as usize].late, ["WRITE", "late WRITE"])
        }
        Event::Command(READ) if taken => Some("READ"),
        Event::Command(WRITE_FILE_MARK) if taken => Some("WRITE FILE MARK"),
        Event::Command(READ_FILE_MARK) if !drive.exception => Some("READ FILE MARK"),
        Event::Command(ERASE) if taken => Some("ERASE"),
        Event::Command(octet) if taken && SELECT.contains(&octet) => Some("SELECT"),
        Event::Command(_) if drive.mode == Mode::Writing && !taken => Some("illegal in Writing"),
        Event::Command(_) if drive.mode == Mode::Reading && !taken => Some("illegal in Reading"),
        Event::Give(_) if outcome.answer == Answer::Exception => {
            or_late(drive.late, ["early warning", "tape full"])
        }
        Event::Give(_) if before.phase == Phase::Taking(511) && taken => {
            or_late(drive.late, ["block given", "late block given"])
        }
        Event::Take if before.phase == Phase::Giving(511) && taken => Some("block taken"),
        Event::Take if before.phase == Phase::Giving(511) => Some("last block taken"),
        Event::OnlineDropped if taken && before.online => Some(match drive.mode {
            Mode::Idle => "dropped in Idle",
            Mode::Writing => "dropped in Writing",
            Mode::Reading => "dropped in Reading",
        }),
        Event::CartridgeIn { protected: true, .. } if taken => Some("protected cartridge in"),
        Event::CartridgeIn { .. } if taken => Some("cartridge in"),
        Event::CartridgeOut(at) if outcome.answer == Answer::Exception => Some(pulled(before, at)),
        Event::Underrun(_) if matches!(before.phase, Phase::Status(_)) => Some("late underrun"),
        Event::Reset if matches!(before.phase, Phase::Taking(_)) => Some("RESET in a block"),
        _ => None,
    }
}

#[test]
fn steered_traces_do_all_that_a_unit_is_for() {
    let mut seen = BTreeMap::<&str, usize>::new();
    let mut steered = cases("steered", 3_000_000);
    steered.extend(cases("at the end", 1_000_000));
    walk(&steered, |before, event, outcome, after| {
        if let Some(word) = word(before, event, outcome, after) {
            *seen.entry(word).or_default() += 1;
        }
    });
    println!("{seen:#?}");
    assert_eq!(seen.len(), 26, "{seen:#?}");
    assert!(seen.values().all(|&count| count >= 10), "{seen:#?}");
}

#[test]
fn five_million_events_are_compared_if_nothing_else_is_asked() {
    let mut events = 0;
    for case in suites::all(3, 3_000_000) {
        events += events::all(&case.trace()).count();
    }
    assert!(events >= 5_500_000, "{events}");
}

#[test]
fn a_seed_makes_the_same_traces_again() {
    let traces = |seed| suites::all(seed, 80_000).iter().map(Case::trace).collect::<Vec<_>>();
    assert!(traces(1) == traces(1));
    assert!(traces(1) != traces(2));
}
