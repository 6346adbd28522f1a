//! Mutants that keep, clear or overlook the late blocks of a drive where they should not.

use super::Scene;
use crate::commands::*;
use crate::state::{Drive, Mode, Phase, Unit, LATE_BLOCKS};
use crate::{Answer, Lines, Outcome};

/// Steps, and keeps the late blocks of drives that stopped to write, where this says so.
fn kept(scene: &mut Scene, keeps: impl Fn(&Scene, &Unit, usize) -> bool) {
    let before = scene.go_from();
    for (at, old) in before.drives.iter().enumerate() {
        let ended = old.late > 0 && scene.unit.drives[at].mode != Mode::Writing;
        if ended && scene.taken() && keeps(scene, &before, at) {
            scene.unit.drives[at].late = old.late;
        }
    }
}

fn selected(before: &Unit, at: usize) -> bool {
    before.selected == at as u64
}

pub fn by_reset(scene: &mut Scene) {
    kept(scene, |scene, _, _| scene.event == [0x06]);
}

pub fn by_reset_elsewhere(scene: &mut Scene) {
    kept(scene, |scene, before, at| scene.event == [0x06] && !selected(before, at));
}

pub fn by_out(scene: &mut Scene) {
    kept(scene, |scene, _, _| scene.event[0] == 0x08);
}

pub fn by_out_elsewhere(scene: &mut Scene) {
    kept(scene, |scene, before, at| scene.event[0] == 0x08 && !selected(before, at));
}

pub fn by_drop(scene: &mut Scene) {
    kept(scene, |scene, before, at| scene.event == [0x05] && !before.drives[at].exception);
}

pub fn by_drop_exception(scene: &mut Scene) {
    kept(scene, |scene, before, at| scene.event == [0x05] && before.drives[at].exception);
}

pub fn by_drop_full(scene: &mut Scene) {
    kept(scene, |scene, _, _| scene.event == [0x05] && scene.outcome.answer == Answer::Exception);
}

pub fn by_mark(scene: &mut Scene) {
    kept(scene, |scene, _, _| scene.event[0] == 0x01 && scene.outcome.answer == Answer::Taken);
}

pub fn by_mark_full(scene: &mut Scene) {
    kept(scene, |scene, _, _| scene.event[0] == 0x01 && scene.outcome.answer != Answer::Taken);
}

/// One block less, as after any other.
pub fn by_eom(scene: &mut Scene) {
    let before = scene.go_from();
    let at = before.selected as usize;
    let Some(old) = before.drives.get(at) else { return };
    let moved = old.head != scene.unit.drives[at].head;
    if scene.event.first() == Some(&0x02) && scene.taken() && moved && old.late > 0 {
        scene.unit.drives[at].late = old.late - 1;
    }
}

pub fn by_eom_alone(scene: &mut Scene) {
    kept(scene, |scene, before, at| {
        let moved = before.drives[at].head != scene.unit.drives[at].head;
        scene.event[0] == 0x02 && !moved
    });
}

pub fn by_refused_write(scene: &mut Scene) {
    let write = scene.commands(WRITE);
    let before = scene.go_from();
    let at = scene.at();
    let eom = !before.drives[at].latched.eom && scene.unit.drives[at].latched.eom;
    if write && eom && scene.taken() {
        scene.unit.drives[at].late = LATE_BLOCKS;
    }
}

/// Late blocks gone where this was taken and the writing goes on.
fn cleared(scene: &mut Scene, clears: impl Fn(&Scene) -> bool) {
    let at = scene.at();
    scene.go();
    if scene.taken() && clears(scene) {
        scene.unit.drives[at].late = 0;
    }
}

pub fn status_clears(scene: &mut Scene) {
    cleared(scene, |scene| scene.event == [0x01, READ_STATUS]);
}

pub fn illegal_clears(scene: &mut Scene) {
    cleared(scene, |scene| scene.is(0x01) && scene.outcome.answer == Answer::Exception);
}

pub fn count_clears(scene: &mut Scene) {
    cleared(scene, |scene| scene.is(0x09) || scene.is(0x0A));
}

pub fn raise_clears(scene: &mut Scene) {
    cleared(scene, |scene| scene.is(0x04));
}

/// Steps the record with this done to the late blocks of each drive, where it then can be.
fn overlooked(scene: &mut Scene, bend: impl Fn(&mut Drive, bool)) {
    let mut bent = scene.unit.clone();
    for (at, drive) in bent.drives.iter_mut().enumerate() {
        bend(drive, at as u64 == scene.unit.selected);
    }
    if !bent.impossible() {
        *scene.unit = bent;
    }
    scene.go();
}

fn too_many(drive: &mut Drive) {
    drive.late = drive.late.min(LATE_BLOCKS);
}

fn outside(drive: &mut Drive, mode: Mode) {
    if drive.mode == mode {
        drive.late = 0;
    }
}

pub fn three_pass(scene: &mut Scene) {
    overlooked(scene, |drive, _| {
        if drive.late == LATE_BLOCKS + 1 {
            too_many(drive);
        }
    });
}

pub fn many_pass(scene: &mut Scene) {
    overlooked(scene, |drive, _| too_many(drive));
}

/// As if the number had a sign.
pub fn signed(scene: &mut Scene) {
    overlooked(scene, |drive, _| {
        if drive.late > 127 {
            too_many(drive);
        }
    });
}

pub fn idle_pass(scene: &mut Scene) {
    overlooked(scene, |drive, _| outside(drive, Mode::Idle));
}

pub fn reading_pass(scene: &mut Scene) {
    overlooked(scene, |drive, _| outside(drive, Mode::Reading));
}

pub fn many_elsewhere(scene: &mut Scene) {
    overlooked(scene, |drive, own| {
        if !own {
            too_many(drive);
        }
    });
}

pub fn outside_elsewhere(scene: &mut Scene) {
    overlooked(scene, |drive, own| {
        if !own {
            [Mode::Idle, Mode::Reading].into_iter().for_each(|mode| outside(drive, mode));
        }
    });
}

/// Late blocks outside Writing judged in a drive without EXCEPTION alone.
pub fn exception_passes(scene: &mut Scene) {
    overlooked(scene, |drive, _| {
        if drive.exception {
            outside(drive, Mode::Idle);
        }
    });
}

/// Late blocks judged inside a block alone.
pub fn rest_passes(scene: &mut Scene) {
    let rest = scene.unit.phase == Phase::Rest;
    overlooked(scene, |drive, own| {
        if own && rest {
            too_many(drive);
        }
    });
}

pub fn two_refused(scene: &mut Scene) {
    if scene.unit.drives.iter().any(|drive| drive.late == LATE_BLOCKS) {
        let lines = Lines::default();
        scene.outcome = Outcome { answer: Answer::ImpossibleRecord, byte: None, lines };
    } else {
        scene.go();
    }
}
