//! Mutants that spoil late WRITEs: where they begin, what they take, and where they end.

use super::Scene;
use crate::commands::*;
use crate::state::{Drive, Mode, Phase, Unit, LATE_BLOCKS, LATE_ROOM, LONGEST, ROOM};
use crate::Answer;

/// Place of the selected drive and the room from its head on, in a record that can be.
fn place(scene: &Scene) -> Option<(usize, u64)> {
    if scene.unit.impossible() {
        return None;
    }
    let at = scene.at();
    let length = scene.tapes[at].len() as u64;
    Some((at, length.saturating_sub(scene.unit.drives[at].head)))
}

/// The same where a late WRITE would be judged.
fn at_write(scene: &Scene) -> Option<(usize, u64)> {
    let write = !scene.event.is_empty() && scene.commands(WRITE);
    place(scene).filter(|_| write)
}

/// The same where the last byte of a block comes, and whether the block is a late one.
fn at_block(scene: &Scene) -> Option<(usize, u64, bool)> {
    let last = scene.event.first() == Some(&0x02) && scene.unit.phase == Phase::Taking(511);
    let (at, room) = place(scene).filter(|_| last)?;
    Some((at, room, scene.unit.drives[at].late > 0))
}

/// Steps, and lets this be done to the drive where a WRITE was taken, late or not.
fn taken_write(scene: &mut Scene, bend: impl FnOnce(&mut Drive, u64)) {
    let found = at_write(scene);
    scene.go();
    if let (Some((at, room)), Answer::Taken) = (found, scene.outcome.answer) {
        bend(&mut scene.unit.drives[at], room);
    }
}

/// Undoes what EOM did to a drive, so that the writing goes on with so many late blocks.
fn go_on(scene: &mut Scene, before: &Unit, at: usize, late: u8) {
    let old = before.drives[at].clone();
    let head = scene.unit.drives[at].head;
    scene.unit.drives[at] = Drive { head, mode: Mode::Writing, late, ..old };
    scene.outcome.answer = Answer::Taken;
    scene.outcome.lines = scene.unit.lines();
}

/// Steps as if the selected drive's tape were longer by so many bytes.
fn longer(scene: &mut Scene, at: usize, more: usize) {
    let length = scene.tapes[at].len();
    scene.tapes[at].resize((length + more).min(LONGEST as usize), 0);
    scene.go();
    scene.tapes[at].truncate(length);
}

/// Steps as if the selected drive's tape ended at its head.
fn cut(scene: &mut Scene, at: usize) {
    let head = scene.unit.drives[at].head as usize;
    let length = scene.tapes[at].len();
    let rest = scene.tapes[at].split_off(head.min(length));
    scene.go();
    scene.tapes[at].extend(rest);
}

pub fn refused(scene: &mut Scene) {
    match at_write(scene) {
        Some((at, room)) if room < ROOM => cut(scene, at),
        _ => scene.go(),
    }
}

pub fn for_two(scene: &mut Scene) {
    match at_write(scene) {
        Some((at, room)) if room < LATE_ROOM + 513 => cut(scene, at),
        _ => scene.go(),
    }
}

pub fn write_513(scene: &mut Scene) {
    match at_write(scene) {
        Some((at, room)) if room == LATE_ROOM - 1 => longer(scene, at, 1),
        _ => scene.go(),
    }
}

pub fn block_513(scene: &mut Scene) {
    match at_block(scene) {
        Some((at, room, true)) if room == LATE_ROOM - 1 || room == LATE_ROOM + 512 => {
            longer(scene, at, 1)
        }
        _ => scene.go(),
    }
}

pub fn late_1541(scene: &mut Scene) {
    taken_write(scene, |drive, room| {
        if room == ROOM {
            drive.late = LATE_BLOCKS;
        }
    });
}

pub fn always_late(scene: &mut Scene) {
    taken_write(scene, |drive, _| drive.late = LATE_BLOCKS);
}

pub fn one_block(scene: &mut Scene) {
    taken_write(scene, |drive, _| drive.late = drive.late.min(1));
}

pub fn what_fits(scene: &mut Scene) {
    taken_write(scene, |drive, room| {
        drive.late = drive.late.min(((room - 1) / 513) as u8);
    });
}

/// The first block after a WRITE is not counted.
pub fn three_blocks(scene: &mut Scene) {
    let wrote = at_write(scene).is_some();
    let block = at_block(scene);
    let before = scene.go_from();
    match block {
        _ if wrote => *scene.memory = (scene.outcome.answer == Answer::Taken) as u64,
        Some((at, _, true)) if *scene.memory == 1 => {
            *scene.memory = 0;
            let moved = scene.unit.drives[at].head != before.drives[at].head;
            if moved && scene.unit.drives[at].mode == Mode::Writing {
                scene.unit.drives[at].late = before.drives[at].late;
            }
        }
        _ => {}
    }
}

pub fn one_write(scene: &mut Scene) {
    let block = at_block(scene);
    let write = at_write(scene).filter(|(_, room)| *room < ROOM && *scene.memory == 1);
    match write {
        Some((at, _)) => cut(scene, at),
        None => scene.go(),
    }
    // Once the late blocks of a WRITE are used up, no other gets any.
    if let (Some((_, _, true)), Answer::Exception) = (block, scene.outcome.answer) {
        *scene.memory = 1;
    }
}

/// Steps, and goes on after a block at which writing ended, where this says with how many.
fn on_after(scene: &mut Scene, left: impl FnOnce(&Drive, u64) -> Option<u8>) {
    let block = at_block(scene);
    let before = scene.go_from();
    let Some((at, room, _)) = block else { return };
    let moved = scene.unit.drives[at].head != before.drives[at].head;
    if moved && scene.outcome.answer == Answer::Exception {
        if let Some(late) = left(&before.drives[at], room - 513) {
            go_on(scene, &before, at, late);
        }
    }
}

pub fn uncounted(scene: &mut Scene) {
    let block = at_block(scene);
    let late = block.map(|(at, _, _)| scene.unit.drives[at].late);
    on_after(scene, |old, room| (old.late > 0 && room >= LATE_ROOM).then_some(old.late));
    if let (Some((at, _, true)), Some(late)) = (block, late) {
        let drive = &mut scene.unit.drives[at];
        drive.late = if drive.mode == Mode::Writing { late } else { 0 };
    }
}

pub fn no_eom_second(scene: &mut Scene) {
    on_after(scene, |old, _| (old.late == 1).then_some(0));
}

pub fn no_eom_room(scene: &mut Scene) {
    on_after(scene, |old, _| (old.late == LATE_BLOCKS).then_some(1));
}

/// As if early warning made a WRITE late by itself.
pub fn goes_on_late(scene: &mut Scene) {
    on_after(scene, |old, room| (old.late == 0 && room >= LATE_ROOM).then_some(LATE_BLOCKS));
}

pub fn ordinary_room(scene: &mut Scene) {
    if let Some((at, _, true)) = at_block(scene) {
        scene.unit.drives[at].late = 0;
    }
    scene.go();
}

/// An ordinary block goes below 0.
pub fn counts_ordinary(scene: &mut Scene) {
    let block = at_block(scene);
    scene.go();
    if let (Some((at, _, false)), Answer::Taken) = (block, scene.outcome.answer) {
        scene.unit.drives[at].late = u8::MAX;
    }
}

pub fn turns_ordinary(scene: &mut Scene) {
    if let Some((at, ROOM.., true)) = at_block(scene) {
        scene.unit.drives[at].late = 0;
    }
    scene.go();
}

pub fn turns_late(scene: &mut Scene) {
    if let Some((at, LATE_ROOM..ROOM, false)) = at_block(scene) {
        scene.unit.drives[at].late = LATE_BLOCKS;
    }
    scene.go();
}

pub fn lost_silently(scene: &mut Scene) {
    let block = at_block(scene);
    let before = scene.go_from();
    if let Some((at, 0..LATE_ROOM, true)) = block {
        go_on(scene, &before, at, before.drives[at].late);
    }
}

/// Both marks that end a WRITE ask for the room of a late block.
pub fn mark_514(scene: &mut Scene) {
    let ends = scene.event == [0x01, WRITE_FILE_MARK] || scene.event == [0x05];
    match place(scene) {
        Some((at, 1..LATE_ROOM)) if ends && scene.unit.drives[at].late > 0 => cut(scene, at),
        _ => scene.go(),
    }
}
