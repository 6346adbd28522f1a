//! Sends cases to a program and compares what comes back with the model.

use crate::compare::program::{Feed, Program};
use crate::probe::board::{Bench, Model};
use crate::probe::coverage::Coverage;
use crate::probe::frame::Frame;
use crate::probe::generate::Case;
use crate::probe::reply::next;
use crate::probe::shrink::shrunk;
use std::sync::atomic::{AtomicUsize, Ordering::SeqCst};
use std::sync::mpsc::{channel, Sender};
use std::thread;

/// What is compared, and how.
pub struct Plan<'a> {
    pub program: &'a dyn Program,
    pub seed: u64,
    pub jobs: usize,
    /// No case is started after so many failures.
    pub most_failures: usize,
}

/// A frame that was answered in another way than the model's.
pub struct Difference {
    pub number: usize,
    pub frame: Frame,
    /// What the program replied, or why it did not.
    pub reply: Result<Vec<u8>, String>,
    pub model: Vec<u8>,
}

/// Some frames of a case that differ, and the first in its smallest form if it has one.
pub struct Failure {
    pub count: usize,
    pub first: Vec<Difference>,
    pub shrunk: Option<Difference>,
}

/// What became of a case.
pub struct Ran {
    pub case: usize,
    pub frames: usize,
    pub coverage: Coverage,
    pub failure: Option<Failure>,
}

/// Differences that are kept of one case.
const KEPT: usize = 3;

/// Runs the cases on several threads; tells of each as it ends.
pub fn run(plan: &Plan, cases: &[Case], mut tell: impl FnMut(Ran)) {
    let (next, failures) = (AtomicUsize::new(0), AtomicUsize::new(0));
    let (sender, results) = channel();
    thread::scope(|scope| {
        for _ in 0..plan.jobs.max(1) {
            let (sender, next, failures) = (sender.clone(), &next, &failures);
            scope.spawn(move || work(plan, cases, next, failures, sender));
        }
        drop(sender);
        results.into_iter().for_each(&mut tell);
    });
}

/// Takes cases until there are none, or too many failed.
fn work(
    plan: &Plan,
    cases: &[Case],
    next: &AtomicUsize,
    failures: &AtomicUsize,
    results: Sender<Ran>,
) {
    while failures.load(SeqCst) < plan.most_failures {
        let number = next.fetch_add(1, SeqCst);
        let Some(case) = cases.get(number) else {
            return;
        };
        let mut ran = compare(plan.program, &case.frames(plan.seed));
        ran.case = number;
        failures.fetch_add(ran.failure.is_some() as usize, SeqCst);
        if results.send(ran).is_err() {
            return;
        }
    }
}

/// Frames as a program reads them.
pub fn written(frames: &[Frame]) -> Vec<u8> {
    let mut bytes = Vec::with_capacity(frames.len() * 2048);
    frames.iter().for_each(|frame| frame.write(&mut bytes));
    bytes
}

/// One conversation about these frames.
pub fn compare(program: &dyn Program, frames: &[Frame]) -> Ran {
    let mut bench = Bench::new(Box::new(Model));
    let mut coverage = Coverage::default();
    let mut model = Vec::with_capacity(frames.len() * 2048);
    for frame in frames {
        let reply = bench.reply(frame);
        coverage.observe(frame, &reply);
        reply.write(&mut model);
    }
    let failure = match program.run(&written(frames), Feed::Whole) {
        Ok(replies) if replies == model => None,
        Ok(replies) => Some(differences(frames, &replies, &model)),
        Err(wrong) => Some(stopped(program, frames, &model, wrong)),
    };
    let failure = failure.map(|failure| Failure {
        shrunk: failure.first.first().and_then(|first| shrunk(program, &first.frame)),
        ..failure
    });
    Ran { case: 0, frames: frames.len(), coverage, failure }
}

/// Which frames were replied to in another way.
fn differences(frames: &[Frame], mut replies: &[u8], mut model: &[u8]) -> Failure {
    let mut failure = Failure { count: 0, first: Vec::new(), shrunk: None };
    for (number, frame) in frames.iter().enumerate() {
        let own = next(&mut model).expect("the model replies to each frame");
        let reply = next(&mut replies);
        let end = reply.is_err();
        if reply.as_ref() != Ok(&own) {
            failure.add(number, frame, reply.map(<[u8]>::to_vec), own);
        }
        if end {
            return failure;
        }
    }
    if !replies.is_empty() {
        let more = format!("{} bytes after the last reply", replies.len());
        let last = frames.last().expect("a case has frames");
        failure.add(frames.len() - 1, last, Err(more), &[]);
    }
    failure
}

impl Failure {
    fn add(&mut self, number: usize, frame: &Frame, reply: Result<Vec<u8>, String>, model: &[u8]) {
        self.count += 1;
        if self.first.len() < KEPT {
            let (frame, model) = (frame.clone(), model.to_vec());
            self.first.push(Difference { number, frame, reply, model });
        }
    }
}

/// The frame at which the program stops, found by shorter and shorter runs.
fn stopped(program: &dyn Program, frames: &[Frame], model: &[u8], wrong: String) -> Failure {
    let (mut fine, mut stops) = (0, frames.len());
    while stops - fine > 1 {
        let middle = (fine + stops) / 2;
        match program.run(&written(&frames[..middle]), Feed::Whole) {
            Ok(_) => fine = middle,
            Err(_) => stops = middle,
        }
    }
    let mut model = model;
    let own = (0..stops).map(|_| next(&mut model)).last();
    let own = own.and_then(Result::ok).unwrap_or_default();
    let mut failure = Failure { count: 0, first: Vec::new(), shrunk: None };
    failure.add(stops - 1, &frames[stops - 1], Err(wrong), own);
    failure
}
