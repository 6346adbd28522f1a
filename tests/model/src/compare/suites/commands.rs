//! All command octets and all other events in every state that `replay` can reach.

use super::situations::{Situation, SITUATIONS};
use super::Case;
use crate::commands::*;
use crate::compare::script::Script;
use crate::state::{Drive, Phase};

/// What makes a state the same again: all but staging and octets, and the drive's tape.
type Goal = (u64, bool, Phase, [Drive; 4], Vec<u8>);

fn goal(script: &Script, drive: u8) -> Goal {
    let unit = &script.unit;
    let tape = script.tapes[drive as usize].clone();
    (unit.selected, unit.online, unit.phase, unit.drives.clone(), tape)
}

/// A script that comes back to one state again and again.
struct Stage {
    script: Script,
    situation: &'static Situation,
    drive: u8,
    goal: Option<Goal>,
}

impl Stage {
    fn new(number: usize) -> Stage {
        let situation = &SITUATIONS[number];
        Stage { script: Script::default(), situation, drive: (number % 4) as u8, goal: None }
    }

    /// Reaches the state, unless the script is still there.
    fn set(&mut self) {
        if self.goal.as_ref() == Some(&goal(&self.script, self.drive)) {
            return;
        }
        let script = &mut self.script;
        script.reset();
        script.change(self.drive, false);
        script.choose(self.drive);
        self.lay_records();
        (self.situation.moves)(&mut self.script, self.drive);
        self.goal = Some(goal(&self.script, self.drive));
    }

    /// Puts the records on tape if they are not there, and rewinds.
    fn lay_records(&mut self) {
        let script = &mut self.script;
        let there = self.goal.as_ref().map(|goal| &goal.4);
        if there != Some(&script.tapes[self.drive as usize]) {
            script.command(ERASE);
            for (n, record) in self.situation.records.bytes().enumerate() {
                if record == b'm' {
                    script.command(WRITE_FILE_MARK);
                } else {
                    script.record_block(0x70 + n as u8);
                }
            }
        }
        script.calm_here();
        script.command(BOT);
    }

    /// Shows mode, phase, octets, head and tape by what the unit then does.
    fn look(&mut self) {
        let script = &mut self.script;
        script.give(0x3C);
        script.take();
        script.settle();
        script.report();
        script.read_back(self.drive);
    }
}

/// All octets: the unknown ones are followed by a report, the known ones by all that shows.
pub fn commands() -> Vec<Case> {
    let case = |number: usize| {
        Case::new("commands", SITUATIONS[number].name, move || {
            let mut stage = Stage::new(number);
            for octet in 0..=255 {
                stage.set();
                stage.script.command(octet);
                if Command::of(octet).is_some() {
                    stage.look();
                } else if stage.script.unit.phase == Phase::Rest {
                    stage.script.report();
                }
            }
            stage.look();
            stage.script.trace
        })
    };
    (0..SITUATIONS.len()).map(case).collect()
}

/// All other events on every drive.
pub fn other_events() -> Vec<Case> {
    let case = |number: usize| {
        Case::new("other events", SITUATIONS[number].name, move || {
            let mut stage = Stage::new(number);
            for event in [&[0x02, 0xA5][..], &[0x03], &[0x04], &[0x05], &[0x06]] {
                stage.set();
                stage.script.send(event);
                stage.look();
            }
            for kind in 0x07..=0x0A {
                for drive in 0..4 {
                    stage.set();
                    stage.script.send(&[kind, drive]);
                    stage.script.send(&[kind, drive]);
                    stage.look();
                    stage.script.choose(drive);
                }
            }
            stage.script.trace
        })
    };
    (0..SITUATIONS.len()).map(case).collect()
}

/// All octets and some other events at every place of a block and of a report.
pub fn inside() -> Vec<Case> {
    vec![
        Case::script("inside", "a block given", inside_given),
        Case::script("inside", "a block taken", inside_taken),
        Case::script("inside", "a report", inside_report),
    ]
}

fn inside_given(script: &mut Script) {
    script.insert(0, false);
    script.choose(0);
    script.command(WRITE);
    for n in 0..511u16 {
        script.give(n as u8);
        disturb(script, n as u8);
    }
    script.give(0xFF);
    script.read_back(0);
}

fn inside_taken(script: &mut Script) {
    script.insert(0, false);
    script.choose(0);
    script.record_block(0x80);
    script.calm();
    script.command(READ);
    for n in 0..511u16 {
        script.take();
        disturb(script, n as u8);
    }
    script.take();
    script.report();
}

fn inside_report(script: &mut Script) {
    script.insert(0, true);
    for n in 0..=255 {
        script.command(READ_STATUS);
        for _ in 0..5 {
            script.take();
            disturb(script, n);
        }
        script.take();
    }
}

/// What may be tried at any place without an end to what is going on.
fn disturb(script: &mut Script, octet: u8) {
    script.command(octet);
    match octet % 8 {
        0 => script.raise(),
        1 => script.lower(),
        2 => script.error(0),
        3 => script.underrun(0),
        4 => script.insert(0, true),
        5 => script.change(1, false),
        _ => return,
    };
}
