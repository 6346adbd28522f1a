//! What became of the cases of all generators.

use crate::probe::coverage::Coverage;
use crate::probe::generate;
use crate::probe::runner::Ran;
use std::collections::BTreeMap;

/// What became of one generator.
#[derive(Default)]
struct Count {
    frames: usize,
    passed: usize,
    failed: usize,
}

/// All cases that ran.
#[derive(Default)]
pub struct Tally {
    generators: BTreeMap<&'static str, Count>,
    coverage: Coverage,
}

impl Tally {
    pub fn add(&mut self, generator: &'static str, ran: &Ran) {
        let count = self.generators.entry(generator).or_default();
        count.frames += ran.frames;
        match ran.failure {
            None => count.passed += 1,
            Some(_) => count.failed += 1,
        }
        self.coverage.add(&ran.coverage);
    }

    pub fn frames(&self) -> usize {
        self.sum(|count| count.frames)
    }

    pub fn cases(&self) -> usize {
        self.sum(|count| count.passed + count.failed)
    }

    fn sum(&self, of: fn(&Count) -> usize) -> usize {
        self.generators.values().map(of).sum()
    }

    /// One line for each generator, and what the frames came to if all ran; gives the checks that
    /// passed and that failed.
    pub fn print(&self, all: bool) -> (usize, usize) {
        for name in generate::names() {
            if let Some(Count { frames, passed, failed }) = self.generators.get(name) {
                println!("{name}: {frames} frames, {passed} cases passed, {failed} failed");
            }
        }
        let (passed, failed) = (self.sum(|count| count.passed), self.sum(|count| count.failed));
        if self.generators.is_empty() {
            return (0, 1);
        }
        if !all || failed > 0 {
            return (passed, failed);
        }
        self.coverage.table().iter().for_each(|line| println!("{line}"));
        let gaps = self.coverage.gaps();
        gaps.iter().for_each(|gap| println!("GAP: {gap}"));
        (passed + Coverage::demands().saturating_sub(gaps.len()), gaps.len())
    }
}
