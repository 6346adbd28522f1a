//! What is compared, by suites of cases; a case is one run of the program.

mod commands;
mod document;
mod feeding;
mod late;
mod limits;
mod malformed;
mod random;
mod situations;

use crate::compare::program::Feed;
use crate::compare::script::Script;
use crate::replay::blank_tapes;
use crate::{events, listing, Answer, Outcome, Unit};
use std::fs;
use std::path::Path;

/// One trace, made when it is wanted.
pub struct Case {
    pub suite: &'static str,
    pub name: String,
    pub feed: Feed,
    make: Box<dyn Fn() -> Vec<u8> + Send + Sync>,
}

impl Case {
    /// A case from what makes its trace.
    fn new(
        suite: &'static str,
        name: impl Into<String>,
        make: impl Fn() -> Vec<u8> + Send + Sync + 'static,
    ) -> Case {
        Case { suite, name: name.into(), feed: Feed::Whole, make: Box::new(make) }
    }

    /// A case from moves on a fresh unit.
    fn script(
        suite: &'static str,
        name: impl Into<String>,
        moves: impl Fn(&mut Script) + Send + Sync + 'static,
    ) -> Case {
        Case::new(suite, name, move || {
            let mut script = Script::default();
            moves(&mut script);
            script.trace
        })
    }

    pub fn trace(&self) -> Vec<u8> {
        (self.make)()
    }
}

/// All cases for a seed, with at least so many events in the random ones.
pub fn all(seed: u64, events: usize) -> Vec<Case> {
    [
        document::sample(),
        document::runs_to_check(),
        document::easy_to_get_wrong(),
        malformed::empty(),
        malformed::cut_off(seed),
        malformed::kinds(seed),
        malformed::drive_bodies(seed),
        commands::commands(),
        commands::other_events(),
        commands::inside(),
        limits::counters(),
        limits::room(),
        limits::full_tapes(seed),
        late::rooms(),
        late::states(),
        feeding::pieces(seed),
        feeding::lengths(seed),
        random::steered(seed, events / 2),
        random::at_the_end(seed, events / 8),
        random::disturbed(seed, events / 8),
        random::heedless(seed, events / 8),
        random::long(seed, events / 4),
    ]
    .into_iter()
    .flatten()
    .collect()
}

/// Calls back with the record before each answered event and with what came of it.
pub fn walk(cases: &[Case], mut see: impl FnMut(&Unit, &[u8], &Outcome, &Unit)) {
    for case in cases {
        let (mut unit, mut tapes) = (Unit::fresh(), blank_tapes());
        for event in events::all(&case.trace()) {
            let before = unit.clone();
            let outcome = unit.step(&mut tapes, event);
            see(&before, event, &outcome, &unit);
            if outcome.answer == Answer::Malformed {
                break;
            }
        }
    }
}

/// The listings of a folder; one that cannot be read is left to the test of the examples.
pub fn examples(folder: &Path) -> Vec<Case> {
    let files = fs::read_dir(folder).into_iter().flatten().flatten().map(|entry| entry.path());
    let mut files: Vec<_> =
        files.filter(|path| path.extension().is_some_and(|end| end == "listing")).collect();
    files.sort();
    let case = |path: &std::path::PathBuf| {
        let trace = listing::to_raw(&fs::read_to_string(path).ok()?).ok()?;
        let name = path.file_stem()?.to_string_lossy().into_owned();
        Some(Case::new("examples", name, move || trace.clone()))
    };
    files.iter().filter_map(case).collect()
}
