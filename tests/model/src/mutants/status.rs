//! Mutants that spoil octets, counts, cartridges and lines.

use super::Scene;
use crate::commands::*;
use crate::state::{Mode, Phase};
use crate::{Answer, Lines};

pub fn constant_octets(scene: &mut Scene) {
    scene.go();
    scene.unit.octets = [0xC0, 0x81, 0, 0, 0, 0];
}

pub fn invented_counts(scene: &mut Scene) {
    scene.go();
    if scene.is(0x0A) && scene.taken() {
        let drive = &mut scene.unit.drives[scene.event[1] as usize];
        drive.errors = drive.errors.saturating_add(1);
    }
}

pub fn no_cni(scene: &mut Scene) {
    let before = scene.go_from();
    if scene.is(0x08) && scene.taken() {
        let at = scene.event[1] as usize;
        scene.unit.drives[at].latched.cni = before.drives[at].latched.cni;
    }
}

pub fn late_clearing(scene: &mut Scene) {
    let last = scene.unit.phase == Phase::Status(1);
    scene.go();
    if last && scene.is(0x03) {
        let at = scene.at();
        scene.unit.drives[at].errors = 0;
        scene.unit.drives[at].underruns = 0;
    }
}

pub fn st0_overlooks_wrp(scene: &mut Scene) {
    let before = scene.go_from();
    if before.octets != scene.unit.octets && scene.unit.octets[0] == 0x90 {
        scene.unit.octets[0] = 0x10;
    }
}

pub fn st1_overlooks_bom(scene: &mut Scene) {
    let before = scene.go_from();
    if before.octets != scene.unit.octets && scene.unit.octets[1] == 0x88 {
        scene.unit.octets[1] = 0x08;
    }
}

pub fn errors_wrap(scene: &mut Scene) {
    let before = scene.go_from();
    if scene.is(0x09) && scene.taken() {
        let at = scene.event[1] as usize;
        scene.unit.drives[at].errors = before.drives[at].errors.wrapping_add(1);
    }
}

pub fn underruns_short(scene: &mut Scene) {
    scene.go();
    scene.unit.drives.iter_mut().for_each(|drive| drive.underruns = drive.underruns.min(65_534));
}

pub fn direction_stays(scene: &mut Scene) {
    scene.go();
    let reading = scene.unit.drives[scene.at()].mode == Mode::Reading;
    let lines = scene.unit.lines();
    scene.lines = Some(Lines { direction: lines.direction || reading, ..lines });
}

pub fn out_ends_status(scene: &mut Scene) {
    scene.go();
    if scene.is(0x08) && scene.taken() && scene.event[1] as u64 == scene.unit.selected {
        scene.unit.phase = Phase::Rest;
    }
}

pub fn status_ends(scene: &mut Scene) {
    let status = scene.commands(READ_STATUS);
    scene.go();
    if status {
        scene.unit.drives[scene.unit.selected as usize].mode = Mode::Idle;
    }
}

pub fn in_clears(scene: &mut Scene) {
    scene.go();
    if scene.is(0x07) && scene.taken() {
        scene.unit.drives[scene.event[1] as usize & 3].exception = false;
    }
}

pub fn protected_ill(scene: &mut Scene) {
    let write = scene.commands(WRITE);
    scene.go();
    let drive = &mut scene.unit.drives[scene.unit.selected as usize];
    if write && drive.protected {
        drive.latched.ill = true;
    }
}

pub fn out_elsewhere(scene: &mut Scene) {
    scene.go();
    if scene.is(0x08) && scene.taken() && scene.event[1] as u64 != scene.unit.selected {
        scene.outcome.answer = Answer::Taken;
    }
}
