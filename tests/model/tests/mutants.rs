//! The comparison has teeth: it finds every model with a rule broken, and shrinks the trace.

use model::compare::program::Mutant;
use model::compare::runner::{run, Failure, Plan};
use model::compare::suites::{self, Case};
use model::{listing, mutants};
use std::sync::Mutex;
use std::time::Duration;

/// The case that finds a mutant first, and the lines of its shrunk listing.
fn found(number: usize, cases: &[Case], seconds: u64) -> Option<(String, usize)> {
    let found = Mutex::new(None);
    let plan = Plan {
        cases,
        program: &Mutant(number),
        jobs: 1,
        most_failures: 1,
        patience: Duration::from_secs(seconds),
        progress: false,
    };
    run(&plan, &|failure: &Failure| {
        let (trace, _) = failure.shrunk.as_ref().expect("the first failure is shrunk");
        let lines = listing::to_text(trace).lines().count();
        let name = format!("{}: {}", failure.case.suite, failure.case.name);
        *found.lock().unwrap() = Some((name, lines));
    });
    found.into_inner().unwrap()
}

/// Half of the mutants each, so that two threads can share them.
fn every_mutant_is_found_and_shrunk(half: usize) {
    let cases = suites::all(7, 200_000);
    for number in (1..=mutants::COUNT).filter(|number| number % 2 == half) {
        let name = mutants::name(number);
        let (by, lines) = found(number, &cases, 60).unwrap_or_else(|| panic!("not found: {name}"));
        println!("mutant {number}, {name}: found by {by}, shrunk to {lines} lines");
        assert!(lines <= 20, "mutant {number}, {name}: {lines} lines");
    }
}

#[test]
fn every_odd_mutant_is_found_and_shrunk() {
    every_mutant_is_found_and_shrunk(1);
}

#[test]
fn every_even_mutant_is_found_and_shrunk() {
    every_mutant_is_found_and_shrunk(0);
}

#[test]
fn most_mutants_are_found_by_random_traces_alone() {
    let suites = ["steered", "at the end", "disturbed", "heedless", "long"];
    let mut cases = suites::all(7, 2_000_000);
    cases.retain(|case| suites.contains(&case.suite));
    let missed: Vec<&str> = (1..=mutants::COUNT)
        .filter(|&number| found(number, &cases, 0).is_none())
        .map(mutants::name)
        .collect();
    println!("missed by random traces: {missed:?}");
    assert!(missed.len() <= 6, "{missed:?}");
}
