//! Mutants that spoil what is refused, and in which order.

use super::Scene;
use crate::state::{Mode, Phase, Unit, LONGEST};
use crate::{Answer, Event, Lines, Outcome};

/// Steps the record as if it were this one, where that is another and can be.
fn taken_for(scene: &mut Scene, bend: fn(&mut Unit)) {
    let mut bent = scene.unit.clone();
    bend(&mut bent);
    if bent != *scene.unit && !bent.impossible() {
        *scene.unit = bent;
    }
    scene.go();
}

/// Refuses without a look at anything else.
fn refuse(scene: &mut Scene, answer: Answer, lines: Lines) {
    scene.outcome = Outcome { answer, byte: None, lines };
}

pub fn head_refused(scene: &mut Scene) {
    if scene.unit.drives.iter().any(|drive| drive.head == LONGEST) {
        refuse(scene, Answer::ImpossibleRecord, Lines::default());
    } else {
        scene.go();
    }
}

pub fn head_passed(scene: &mut Scene) {
    taken_for(scene, |unit| {
        for drive in unit.drives.iter_mut().filter(|drive| drive.head == LONGEST + 1) {
            drive.head = LONGEST;
        }
    });
}

pub fn place_0(scene: &mut Scene) {
    taken_for(scene, |unit| match unit.phase {
        Phase::Taking(0) | Phase::Giving(0) => unit.phase = Phase::Rest,
        _ => {}
    });
}

pub fn place_512(scene: &mut Scene) {
    taken_for(scene, |unit| {
        unit.phase = match unit.phase {
            Phase::Taking(512) => Phase::Taking(511),
            Phase::Giving(512) => Phase::Giving(511),
            phase => phase,
        }
    });
}

pub fn octets_7(scene: &mut Scene) {
    taken_for(scene, |unit| {
        if unit.phase == Phase::Status(7) {
            unit.phase = Phase::Status(6);
        }
    });
}

pub fn octets_0(scene: &mut Scene) {
    taken_for(scene, |unit| {
        if unit.phase == Phase::Status(0) {
            unit.phase = Phase::Rest;
        }
    });
}

pub fn selected_4(scene: &mut Scene) {
    taken_for(scene, |unit| unit.selected %= 4);
}

pub fn place_low(scene: &mut Scene) {
    taken_for(scene, |unit| {
        unit.phase = match unit.phase {
            Phase::Taking(n) => Phase::Taking(n & 0xFFFF_FFFF),
            Phase::Giving(n) => Phase::Giving(n & 0xFFFF_FFFF),
            phase => phase,
        }
    });
}

/// Gives the selected drive a mode, if there is such a drive.
fn set_mode(unit: &mut Unit, mode: Mode) {
    let at = usize::try_from(unit.selected).ok();
    if let Some(drive) = at.and_then(|at| unit.drives.get_mut(at)) {
        drive.mode = mode;
    }
}

pub fn given_idle(scene: &mut Scene) {
    taken_for(scene, |unit| {
        if let Phase::Taking(_) = unit.phase {
            set_mode(unit, Mode::Writing);
        }
    });
}

pub fn taken_idle(scene: &mut Scene) {
    taken_for(scene, |unit| {
        if let Phase::Giving(_) = unit.phase {
            set_mode(unit, Mode::Reading);
        }
    });
}

pub fn plug_alone(scene: &mut Scene) {
    taken_for(scene, |unit| unit.drives[3].protected &= unit.drives[3].loaded);
}

pub fn protected_elsewhere(scene: &mut Scene) {
    taken_for(scene, |unit| {
        for (at, drive) in unit.drives.iter_mut().enumerate() {
            drive.protected &= at as u64 == unit.selected || drive.mode != Mode::Writing;
        }
    });
}

pub fn mode_elsewhere(scene: &mut Scene) {
    taken_for(scene, |unit| {
        for (at, drive) in unit.drives.iter_mut().enumerate() {
            if at as u64 != unit.selected && !drive.loaded {
                drive.mode = Mode::Idle;
            }
        }
    });
}

/// Whether a tape is too long.
fn too_long(scene: &Scene) -> bool {
    scene.tapes.iter().any(|tape| tape.len() as u64 > LONGEST)
}

pub fn six_before_five(scene: &mut Scene) {
    scene.go();
    if too_long(scene) && scene.outcome.answer == Answer::ImpossibleRecord {
        refuse(scene, Answer::TapeTooLong, Lines::default());
    }
}

pub fn four_before_five(scene: &mut Scene) {
    scene.go();
    let impossible = scene.outcome.answer == Answer::ImpossibleRecord;
    if impossible && Event::of(scene.event).is_none() {
        refuse(scene, Answer::Malformed, Lines::default());
    }
}

pub fn four_before_six(scene: &mut Scene) {
    scene.go();
    if scene.outcome.answer == Answer::TapeTooLong && Event::of(scene.event).is_none() {
        scene.outcome.answer = Answer::Malformed;
    }
}

pub fn six_selected(scene: &mut Scene) {
    let longest = LONGEST as usize;
    let mut tails: [Vec<u8>; 4] = Default::default();
    for (at, tape) in scene.tapes.iter_mut().enumerate() {
        if at as u64 != scene.unit.selected && tape.len() > longest {
            tails[at] = tape.split_off(longest);
        }
    }
    scene.go();
    scene.tapes.iter_mut().zip(tails).for_each(|(tape, tail)| tape.extend(tail));
}

pub fn six_early(scene: &mut Scene) {
    let early = scene.tapes.iter().any(|tape| tape.len() as u64 == LONGEST);
    if early && !scene.unit.impossible() {
        refuse(scene, Answer::TapeTooLong, scene.unit.lines());
    } else {
        scene.go();
    }
}

pub fn lines_after_five(scene: &mut Scene) {
    scene.go();
    scene.outcome.lines = scene.unit.lines();
}

pub fn lines_after_six(scene: &mut Scene) {
    scene.go();
    if scene.outcome.answer == Answer::TapeTooLong {
        scene.outcome.lines = Lines::default();
    }
}

pub fn longer_events(scene: &mut Scene) {
    if let [kind, _, ..] = scene.event {
        let length = crate::events::length(*kind);
        scene.event = &scene.event[..length];
    }
    scene.go();
}

pub fn empty_event(scene: &mut Scene) {
    if scene.event.is_empty() {
        scene.event = &[0x06];
    }
    scene.go();
}

pub fn changed_by_three(scene: &mut Scene) {
    scene.go();
    if let (Answer::WrongCartridge, [0x07, body]) = (scene.outcome.answer, scene.event) {
        scene.unit.drives[(body & 3) as usize].protected = body & 0x80 != 0;
    }
}
