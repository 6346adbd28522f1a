//! Runs cases on several threads and counts what became of them.

use crate::compare::program::{Feed, Program};
use crate::compare::shrink::{difference, Difference, Shrinker};
use crate::compare::suites::Case;
use crate::replay;
use std::collections::HashSet;
use std::sync::atomic::{AtomicUsize, Ordering::SeqCst};
use std::sync::{mpsc, Mutex};
use std::thread;
use std::time::{Duration, Instant};

/// What to run, and how.
pub struct Plan<'a> {
    pub cases: &'a [Case],
    pub program: &'a dyn Program,
    pub jobs: usize,
    /// No case is started after so many failures.
    pub most_failures: usize,
    /// Time for shrinking one trace.
    pub patience: Duration,
    /// Whether to tell on standard error how far the run is.
    pub progress: bool,
}

/// What became of one suite.
#[derive(Clone, Default, Debug)]
pub struct Tally {
    pub suite: &'static str,
    pub passed: usize,
    pub failed: usize,
    pub left_out: usize,
    pub events: usize,
}

/// A case in which program and model differ.
pub struct Failure<'a> {
    pub case: &'a Case,
    pub trace: Vec<u8>,
    pub difference: Difference,
    /// The shortest trace found, if this one was shrunk at all.
    pub shrunk: Option<(Vec<u8>, Difference)>,
}

/// Compares the whole text for one trace; says how many events were answered alike.
pub fn compare(program: &dyn Program, trace: &[u8], feed: Feed) -> Result<usize, Difference> {
    let model = replay(trace);
    let wrong = match program.run(trace, feed) {
        Ok(text) => difference(&text, &model),
        Err(wrong) => {
            Some(Difference { line: 0, program: format!("({wrong})"), model: "(the text)".into() })
        }
    };
    // All lines but the first and the last are events.
    wrong.map_or_else(|| Ok(model.iter().filter(|&&byte| byte == b'\n').count() - 2), Err)
}

/// What the threads share.
struct Run<'a> {
    plan: &'a Plan<'a>,
    next: AtomicUsize,
    failures: AtomicUsize,
    tallies: Mutex<Vec<Tally>>,
    shrunk: Mutex<HashSet<&'static str>>,
    started: Instant,
}

/// Runs all cases; each failure is told as it comes.
pub fn run(plan: &Plan, tell: &(dyn Fn(&Failure) + Sync)) -> Vec<Tally> {
    let run = Run {
        plan,
        next: AtomicUsize::new(0),
        failures: AtomicUsize::new(0),
        tallies: Mutex::new(tallies(plan.cases)),
        shrunk: Mutex::new(HashSet::new()),
        started: Instant::now(),
    };
    thread::scope(|scope| {
        let (alive, ended) = mpsc::channel::<()>();
        for _ in 0..plan.jobs.max(1) {
            let alive = alive.clone();
            let run = &run;
            scope.spawn(move || {
                run.work(tell);
                drop(alive);
            });
        }
        drop(alive);
        // Every worker holds the channel open; a silence of three seconds is time for a word.
        while ended.recv_timeout(Duration::from_secs(3)) == Err(mpsc::RecvTimeoutError::Timeout) {
            run.progress();
        }
    });
    run.tallies.into_inner().expect("no worker panics")
}

/// An empty tally for each suite, in their order.
fn tallies(cases: &[Case]) -> Vec<Tally> {
    let mut tallies: Vec<Tally> = Vec::new();
    for case in cases {
        match tallies.iter_mut().find(|tally| tally.suite == case.suite) {
            Some(tally) => tally.left_out += 1,
            None => tallies.push(Tally { suite: case.suite, left_out: 1, ..Tally::default() }),
        }
    }
    tallies
}

impl Run<'_> {
    /// Takes cases until there are none, or too many failed.
    fn work(&self, tell: &(dyn Fn(&Failure) + Sync)) {
        while self.failures.load(SeqCst) < self.plan.most_failures {
            let Some(case) = self.plan.cases.get(self.next.fetch_add(1, SeqCst)) else {
                return;
            };
            let trace = case.trace();
            let result = compare(self.plan.program, &trace, case.feed);
            self.count(case.suite, &result);
            if let Err(difference) = result {
                self.failures.fetch_add(1, SeqCst);
                tell(&self.failure(case, trace, difference));
            }
        }
    }

    fn count(&self, suite: &str, result: &Result<usize, Difference>) {
        let mut tallies = self.tallies.lock().expect("no worker panics");
        let tally = tallies.iter_mut().find(|tally| tally.suite == suite);
        let tally = tally.expect("each suite has a tally");
        tally.left_out -= 1;
        match result {
            Ok(events) => {
                tally.passed += 1;
                tally.events += events;
            }
            Err(_) => tally.failed += 1,
        }
    }

    /// The first failure of a suite is shrunk, of few suites; more would cost time and tell no more.
    fn failure<'c>(&self, case: &'c Case, trace: Vec<u8>, difference: Difference) -> Failure<'c> {
        let mut shrunk = self.shrunk.lock().expect("no worker panics");
        let worth = shrunk.len() < 4 && shrunk.insert(case.suite);
        drop(shrunk);
        let shrunk = worth.then(|| {
            let differs = |trace: &[u8]| compare(self.plan.program, trace, case.feed).err();
            let mut shrinker =
                Shrinker::new(&trace, difference.clone(), &differs, self.plan.patience);
            shrinker.shrink();
            (shrinker.trace, shrinker.difference)
        });
        Failure { case, trace, difference, shrunk }
    }

    fn progress(&self) {
        if !self.plan.progress {
            return;
        }
        let tallies = self.tallies.lock().expect("no worker panics");
        let sum = |count: fn(&Tally) -> usize| tallies.iter().map(count).sum::<usize>();
        eprintln!(
            "{} s: {} of {} cases, {} events, {} differences",
            self.started.elapsed().as_secs(),
            sum(|tally| tally.passed + tally.failed),
            self.plan.cases.len(),
            sum(|tally| tally.events),
            sum(|tally| tally.failed),
        );
    }
}
