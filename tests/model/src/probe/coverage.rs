//! What the frames came to: a generator that went wrong would leave something out.

use crate::probe::codec::{self, Flaw};
use crate::probe::frame::{Asked, Frame, Step};
use crate::probe::happened::{happened, Happenings, BYTES, ORDERS, SPOILT};
use crate::probe::many::{self, Many};
use crate::probe::reply::{Reply, Stepped};
use crate::probe::wrong::{faults, FAULTS};
use crate::{Event, Unit};
use std::collections::BTreeSet;

/// Which answers can come to an event of each kind, and to the last byte of many.
const CAN: [(&str, &[usize]); 18] = [
    ("no byte", &[4, 5, 6]),
    ("01 command", &[0, 1, 2, 4, 5, 6]),
    ("02 data byte", &[0, 1, 2, 4, 5, 6]),
    ("03 byte taken", &[0, 1, 2, 4, 5, 6]),
    ("04 ONLINE raised", &[0, 2, 4, 5, 6]),
    ("05 ONLINE dropped", &[0, 1, 2, 4, 5, 6]),
    ("06 RESET", &[1, 4, 5, 6]),
    ("07 cartridge in", &[0, 3, 4, 5, 6]),
    ("08 cartridge out", &[1, 3, 4, 5, 6]),
    ("09 error", &[0, 3, 4, 5, 6]),
    ("0A underrun", &[0, 3, 4, 5, 6]),
    ("other kinds", &[4, 5, 6]),
    ("give, no byte", &[0, 5]),
    ("give, first byte", &[0, 1, 2, 5, 6]),
    ("give, later byte", &[0, 1]),
    ("take, no byte", &[0, 5]),
    ("take, first byte", &[0, 1, 2, 5, 6]),
    ("take, later byte", &[0, 1, 2]),
];
/// How many of these are kinds of events, and where the rows of each call begin.
const KINDS: usize = 12;
const GIVE: usize = KINDS;
const TAKE: usize = KINDS + 3;

const FLAWS: [Flaw; 7] = [
    Flaw::Length,
    Flaw::Version,
    Flaw::Bool,
    Flaw::Phase,
    Flaw::NumberAtRest,
    Flaw::Mode,
    Flaw::Unused,
];

/// By what a thing came.
const EVENT: &str = "one event";
const MANY: &str = "many bytes";
const FIRST: &str = "the first byte of many";
const LATER: &str = "a later byte of many";

/// All that has to happen, by each.
const HAPPENINGS: [(&str, Happenings); 8] = [
    (EVENT, ORDERS),
    (EVENT, BYTES),
    (EVENT, SPOILT),
    (FIRST, BYTES),
    (FIRST, SPOILT),
    (LATER, BYTES),
    ("give", many::GIVEN),
    ("take", many::TAKEN),
];

/// How often each answer came, and what came at all.
#[derive(Clone, Default)]
pub struct Coverage {
    answers: [[usize; 7]; CAN.len()],
    flaws: BTreeSet<(&'static str, Flaw)>,
    /// Faults that were the only one in their record.
    faults: BTreeSet<(&'static str, &'static str)>,
    happened: BTreeSet<(&'static str, &'static str, &'static str)>,
}

impl Coverage {
    pub fn observe(&mut self, frame: &Frame, reply: &Reply) {
        if let (Frame::Step(step), Reply::Step(stepped)) = (frame, reply) {
            match &step.asked {
                Asked::Event(event) => self.observe_event(step, event, stepped),
                _ => self.observe_many(step, stepped),
            }
        }
    }

    fn observe_event(&mut self, step: &Step, event: &[u8], stepped: &Stepped) {
        let row = match event.first() {
            None => 0,
            Some(&kind) => (kind as usize).wrapping_sub(1).min(KINDS - 2) + 1,
        };
        let Some((before, after)) = self.observe_record(EVENT, row, step, stepped) else {
            return;
        };
        if stepped.result[0] < 2 {
            let event = Event::of(event).expect("only events are taken");
            let (what, how) = happened(&before, &after, event, step, stepped);
            self.happened.insert((EVENT, what, how));
        }
    }

    fn observe_many(&mut self, step: &Step, stepped: &Stepped) {
        let many = Many::of(step, stepped);
        let (call, row) = if many.gives { ("give", GIVE) } else { ("take", TAKE) };
        let row = row + many.events.min(2);
        let Some((before, after)) = self.observe_record(MANY, row, step, stepped) else {
            return;
        };
        let (what, how) = many.ended(&before, &after, stepped.result[0]);
        self.happened.insert((call, what, how));
        if many.events > 0 && stepped.result[0] < 2 {
            let before = many.before_last(before, step);
            let (what, how) = happened(&before, &after, many.last_event(), step, stepped);
            self.happened.insert((if many.events > 1 { LATER } else { FIRST }, what, how));
        }
    }

    /// The answer, and what is wrong with the record; gives the records before and after where
    /// nothing is, or where that was not looked at.
    fn observe_record(
        &mut self,
        by: &'static str,
        row: usize,
        step: &Step,
        stepped: &Stepped,
    ) -> Option<(Unit, Unit)> {
        let answer = stepped.result[0];
        self.answers[row][answer as usize] += 1;
        let before = codec::decode(&step.record);
        if let Err(flaw) = before {
            self.flaws.insert((by, flaw));
        }
        let before = before.ok()?;
        if answer == 5 {
            if let [only] = faults(&before)[..] {
                self.faults.insert((by, only));
            }
            return None;
        }
        let after = codec::decode(&stepped.record).expect("a record stays one");
        Some((before, after))
    }

    pub fn add(&mut self, more: &Coverage) {
        let cells = self.answers.iter_mut().flatten().zip(more.answers.iter().flatten());
        cells.for_each(|(cell, more)| *cell += more);
        self.flaws.extend(&more.flaws);
        self.faults.extend(&more.faults);
        self.happened.extend(&more.happened);
    }

    /// How often each answer came to each kind of event, and to the last byte of many.
    pub fn table(&self) -> Vec<String> {
        let mut lines = vec![format!("{:<20}{}", "answers", row(&[0, 1, 2, 3, 4, 5, 6]))];
        for ((name, _), counts) in CAN.iter().zip(&self.answers) {
            lines.push(format!("{name:<20}{}", row(counts)));
        }
        let sums = std::array::from_fn(|at| self.answers.iter().map(|counts| counts[at]).sum());
        lines.push(format!("{:<20}{}", "all", row(&sums)));
        lines
    }

    /// What should have come and did not, and what came that cannot.
    pub fn gaps(&self) -> Vec<String> {
        let mut gaps = Vec::new();
        for ((name, can), counts) in CAN.iter().zip(&self.answers) {
            for (answer, &count) in counts.iter().enumerate() {
                if can.contains(&answer) != (count > 0) {
                    gaps.push(format!("answer {answer} to {name} came {count} times"));
                }
            }
        }
        let mut never = |by: &str, what: String, came: bool| {
            if !came {
                gaps.push(format!("never came by {by}: {what}"));
            }
        };
        for by in [EVENT, MANY] {
            for flaw in FLAWS {
                never(by, format!("{flaw:?}"), self.flaws.contains(&(by, flaw)));
            }
            for fault in FAULTS {
                never(by, fault.into(), self.faults.contains(&(by, fault)));
            }
        }
        for (by, what, how) in happenings() {
            never(by, format!("{what}, {how}"), self.happened.contains(&(by, what, how)));
        }
        gaps
    }

    /// How many things are asked for.
    pub fn demands() -> usize {
        let answers: usize = CAN.iter().map(|(_, can)| can.len()).sum();
        answers + 2 * (FLAWS.len() + FAULTS.len()) + happenings().count()
    }
}

/// All that has to happen: by what, what, and how it ends.
fn happenings() -> impl Iterator<Item = (&'static str, &'static str, &'static str)> {
    let rows = HAPPENINGS.iter().flat_map(|(by, rows)| rows.iter().map(move |row| (*by, row)));
    rows.flat_map(|(by, (what, hows))| hows.iter().map(move |how| (by, *what, *how)))
}

fn row(counts: &[usize; 7]) -> String {
    counts.iter().map(|count| format!("{count:>9}")).collect()
}

#[cfg(test)]
mod tests {
    use super::*;

    #[test]
    fn each_thing_that_is_asked_for_is_missed() {
        let gaps = Coverage::default().gaps();
        assert_eq!(gaps.len(), Coverage::demands());
        assert_eq!(gaps.iter().collect::<BTreeSet<_>>().len(), gaps.len());
    }
}
