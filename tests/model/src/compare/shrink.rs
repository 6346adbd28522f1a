//! The first difference between two texts, and a trace made as short as still shows one.

use crate::listing;
use std::time::{Duration, Instant};

/// The first line, counted from 1, in which two texts differ.
#[derive(Clone, PartialEq, Eq, Debug)]
pub struct Difference {
    pub line: usize,
    pub program: String,
    pub model: String,
}

/// Compares as bytes; lines are only looked at when something differs.
pub fn difference(program: &[u8], model: &[u8]) -> Option<Difference> {
    if program == model {
        return None;
    }
    let same = program.iter().zip(model).take_while(|(a, b)| a == b).count();
    let start = model[..same].iter().rposition(|&byte| byte == b'\n').map_or(0, |at| at + 1);
    let line = |text: &[u8]| match text.get(start..) {
        None | Some([]) => "(nothing)".into(),
        Some(rest) => {
            let end = rest.iter().position(|&byte| byte == b'\n');
            let line = String::from_utf8_lossy(&rest[..end.unwrap_or(rest.len())]).into_owned();
            if end.is_some() {
                line
            } else {
                line + " (no newline)"
            }
        }
    };
    Some(Difference {
        line: 1 + model[..start].iter().filter(|&&byte| byte == b'\n').count(),
        program: line(program),
        model: line(model),
    })
}

/// Runs of equal events, the unit in which a trace is shortened.
type Runs = Vec<(Vec<u8>, usize)>;

/// A trace that differs, with the means to try others.
pub struct Shrinker<'a> {
    differs: &'a dyn Fn(&[u8]) -> Option<Difference>,
    until: Instant,
    pub trace: Vec<u8>,
    pub difference: Difference,
}

impl<'a> Shrinker<'a> {
    pub fn new(
        trace: &[u8],
        difference: Difference,
        differs: &'a dyn Fn(&[u8]) -> Option<Difference>,
        limit: Duration,
    ) -> Shrinker<'a> {
        Shrinker { differs, until: Instant::now() + limit, trace: trace.into(), difference }
    }

    /// Shortens until nothing helps any more or the time is over.
    pub fn shrink(&mut self) {
        self.cut_tail();
        // A fault that hangs on the number of events alone is shown by any events.
        let takes = crate::events::all(&self.trace).count();
        self.try_trace(vec![0x03; takes]);
        self.flatten();
        loop {
            let before = self.trace.len();
            self.delete_chunks();
            self.lower_counts();
            self.delete_pairs();
            if self.trace.len() == before || self.late() {
                break;
            }
        }
        self.flatten();
    }

    fn late(&self) -> bool {
        Instant::now() > self.until
    }

    /// Takes a candidate if it still differs.
    fn try_trace(&mut self, trace: Vec<u8>) -> bool {
        if self.late() || trace == self.trace {
            return false;
        }
        match (self.differs)(&trace) {
            Some(difference) => {
                self.trace = trace;
                self.difference = difference;
                self.cut_tail();
                true
            }
            None => false,
        }
    }

    fn try_runs(&mut self, runs: &Runs) -> bool {
        self.try_trace(runs.iter().flat_map(|(event, count)| event.repeat(*count)).collect())
    }

    fn runs(&self) -> Runs {
        listing::runs(&self.trace).into_iter().map(|(event, n)| (event.to_vec(), n)).collect()
    }

    /// What comes after the event that differs cannot matter: line 1 is the title.
    fn cut_tail(&mut self) {
        let events = self.difference.line.saturating_sub(1);
        let kept: usize =
            crate::events::all(&self.trace).take(events).map(|event| event.len()).sum();
        if kept < self.trace.len() {
            let trace = self.trace[..kept].to_vec();
            if let Some(difference) = (self.differs)(&trace) {
                self.trace = trace;
                self.difference = difference;
            }
        }
    }

    /// Makes the given bytes alike where their values do not matter, so that runs appear.
    fn flatten(&mut self) {
        let mut stretches = vec![(0, self.trace.len())];
        while let (Some((from, to)), false) = (stretches.pop(), self.late()) {
            let flat = flat(&self.trace, from, to);
            if flat == self.trace || self.try_trace(flat) || to - from < 2 {
                continue;
            }
            // Some value in here matters; the halves are tried by themselves.
            let middle = (from + to) / 2;
            stretches.extend([(from, middle), (middle, to)]);
        }
    }

    /// Deletes half of the runs, a quarter, and so on down to single ones.
    fn delete_chunks(&mut self) {
        let mut size = self.runs().len().div_ceil(2);
        while size > 0 {
            let mut at = 0;
            while at < self.runs().len() && !self.late() {
                let mut runs = self.runs();
                runs.drain(at..(at + size).min(runs.len()));
                if !self.try_runs(&runs) {
                    at += size;
                }
            }
            size /= 2;
        }
    }

    /// Seeks for each run a low count: whole blocks first, then by halves.
    fn lower_counts(&mut self) {
        let mut at = 0;
        while at < self.runs().len() && !self.late() {
            [1, 512, 1024, 1536].iter().any(|&count| self.try_count(at, count));
            let (mut least, mut most) = (1, self.count(at));
            while least < most {
                let middle = (least + most) / 2;
                if self.try_count(at, middle) {
                    most = middle;
                } else {
                    least = middle + 1;
                }
            }
            at += 1;
        }
    }

    /// How often the run at this place comes; a place that is gone counts nothing.
    fn count(&self, at: usize) -> usize {
        self.runs().get(at).map_or(0, |run| run.1)
    }

    fn try_count(&mut self, at: usize, count: usize) -> bool {
        let mut runs = self.runs();
        match runs.get_mut(at) {
            Some(run) if count < run.1 => run.1 = count,
            _ => return false,
        }
        self.try_runs(&runs)
    }

    /// Deletes two runs at once: an order and its bytes, or a cartridge in and out.
    fn delete_pairs(&mut self) {
        if self.runs().len() > 60 {
            return;
        }
        let mut first = 0;
        while first < self.runs().len() {
            let mut second = first + 1;
            while second < self.runs().len() && !self.late() {
                let mut runs = self.runs();
                runs.remove(second);
                runs.remove(first);
                if !self.try_runs(&runs) {
                    second += 1;
                }
            }
            first += 1;
        }
    }
}

/// A trace with the bytes alike that are given by events which begin in this stretch.
fn flat(trace: &[u8], from: usize, to: usize) -> Vec<u8> {
    let mut flat = Vec::with_capacity(trace.len());
    for event in crate::events::all(trace) {
        let given = event.len() == 2 && event[0] == 0x02 && (from..to).contains(&flat.len());
        flat.extend_from_slice(if given { &[0x02, 0x55] } else { event });
    }
    flat
}

#[cfg(test)]
mod tests {
    use super::*;

    #[test]
    fn the_first_difference_is_found_with_its_line() {
        let found = |program: &str, model: &str| {
            difference(program.as_bytes(), model.as_bytes())
                .map(|found| (found.line, found.program, found.model))
        };
        let told = |line, program: &str, model: &str| Some((line, program.into(), model.into()));
        assert_eq!(found("a\nb\n", "a\nb\n"), None);
        assert_eq!(found("a\nbx\n", "a\nby\n"), told(2, "bx", "by"));
        assert_eq!(found("a\n", "a\nb\n"), told(2, "(nothing)", "b"));
        assert_eq!(found("a\nb\nc\n", "a\nb\n"), told(3, "c", "(nothing)"));
        assert_eq!(found("a\nb", "a\nb\n"), told(2, "b (no newline)", "b"));
        assert_eq!(found("", "a\n"), told(1, "(nothing)", "a"));
    }

    #[test]
    fn a_trace_shrinks_to_what_matters() {
        // Differs as soon as a RESET comes after three bytes FF were given.
        let differs = |trace: &[u8]| {
            let mut given = 0;
            for (index, event) in crate::events::all(trace).enumerate() {
                given += (event == [0x02, 0xFF]) as usize;
                if given >= 3 && event == [0x06] {
                    let text = String::new();
                    return Some(Difference {
                        line: index + 2,
                        program: text.clone(),
                        model: text,
                    });
                }
            }
            None
        };
        let mut trace: Vec<u8> = (0..=255).flat_map(|n| [0x02, n, 0x03]).collect();
        trace = trace.repeat(9);
        trace.extend([0x06, 0x04, 0x05]);
        let first = differs(&trace).unwrap();
        let mut shrinker = Shrinker::new(&trace, first, &differs, Duration::from_secs(60));
        shrinker.shrink();
        assert_eq!(shrinker.trace, [0x02, 0xFF, 0x02, 0xFF, 0x02, 0xFF, 0x06]);
        assert_eq!(shrinker.difference.line, 5);
    }
}
