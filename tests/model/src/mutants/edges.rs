//! Mutants that spoil what is done at the edges of a tape and of a block.

use super::Scene;
use crate::commands::*;
use crate::state::{Mode, Phase};
use crate::Answer;

/// Place and head of the selected drive, in a record that can be.
fn head(scene: &Scene) -> Option<(usize, usize)> {
    if scene.unit.impossible() {
        return None;
    }
    let at = scene.at();
    Some((at, scene.unit.drives[at].head as usize))
}

/// Steps with another kind byte under the head where one of these stands there.
fn with_kind(scene: &mut Scene, stands: impl Fn(u8) -> bool, kind: u8) {
    let Some((at, head)) = head(scene) else {
        return scene.go();
    };
    let kept = scene.tapes[at].get(head).copied().filter(|&kept| stands(kept));
    let Some(kept) = kept else {
        return scene.go();
    };
    scene.tapes[at][head] = kind;
    scene.go();
    if scene.tapes[at][head] == kind {
        scene.tapes[at][head] = kept;
    }
}

pub fn kind_03(scene: &mut Scene) {
    with_kind(scene, |kind| kind == 0x03, 0x02);
}

pub fn not_again(scene: &mut Scene) {
    match scene.unit.phase {
        Phase::Giving(_) => with_kind(scene, |_| true, 0x01),
        _ => scene.go(),
    }
}

pub fn block_past_end(scene: &mut Scene) {
    let reads = !scene.event.is_empty() && scene.commands(READ);
    let before = scene.go_from();
    let Some((at, head)) = head(scene) else { return };
    let cut = scene.tapes[at].len() == head + 512 && scene.tapes[at][head] == 0x01;
    if reads && cut && scene.unit.drives[at].latched.ude && !before.drives[at].exception {
        *scene.unit = before;
        scene.unit.drives[at].mode = Mode::Reading;
        scene.outcome.answer = Answer::Taken;
        scene.outcome.lines = scene.unit.lines();
    }
}

pub fn above_is_end(scene: &mut Scene) {
    let before = scene.go_from();
    let Some((at, head)) = head(scene) else { return };
    let drive = &mut scene.unit.drives[at];
    if head > scene.tapes[at].len() && drive.latched.ude && !before.drives[at].latched.ude {
        drive.latched.ude = false;
        drive.latched.ndt = true;
    }
}

pub fn exception_stops(scene: &mut Scene) {
    let giving = matches!(scene.unit.phase, Phase::Giving(_));
    let lines = scene.unit.lines();
    let before = scene.go_from();
    if giving && lines.exception && scene.event == [0x03] && scene.taken() {
        *scene.unit = before;
        scene.outcome.answer = Answer::OutOfStep;
        (scene.outcome.byte, scene.outcome.lines) = (None, lines);
    }
}

pub fn exception_passed(scene: &mut Scene) {
    let taking = matches!(scene.unit.phase, Phase::Taking(_)) && scene.event.first() == Some(&2);
    match head(scene) {
        Some((at, _)) if taking && scene.unit.drives[at].exception => {
            scene.unit.drives[at].exception = false;
            scene.go();
            scene.unit.drives[at].exception = true;
        }
        _ => scene.go(),
    }
}

pub fn not_staged(scene: &mut Scene) {
    let last = scene.unit.phase == Phase::Taking(511) && scene.event.first() == Some(&0x02);
    let found = head(scene);
    let before = scene.go_from();
    if last && scene.outcome.answer == Answer::Exception && head(scene) == found {
        scene.unit.staging = before.staging;
    }
}

pub fn staging_cleared(scene: &mut Scene) {
    scene.go();
    if scene.event.first() == Some(&0x08) && scene.taken() {
        scene.unit.staging = [0; 512];
    }
}

pub fn last_byte_left(scene: &mut Scene) {
    let erases = !scene.event.is_empty() && scene.commands(ERASE);
    let kept = head(scene).and_then(|(at, _)| Some((at, *scene.tapes[at].last()?)));
    scene.go();
    if let (true, Answer::Taken, Some((at, byte))) = (erases, scene.outcome.answer, kept) {
        *scene.tapes[at].last_mut().expect("there was one") = byte;
    }
}

pub fn ude_moves(scene: &mut Scene) {
    let before = scene.go_from();
    let inside = matches!(before.phase, Phase::Giving(_)) && scene.event == [0x03];
    if inside && scene.outcome.answer == Answer::Exception && scene.outcome.byte.is_none() {
        scene.unit.drives[before.selected as usize].head += 1;
    }
}
