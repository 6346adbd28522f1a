//! Mutants that spoil blocks, marks and the tape.

use super::Scene;
use crate::commands::*;
use crate::state::{Mode, Phase, ROOM};
use crate::Answer;

pub fn first_block_only(scene: &mut Scene) {
    let at = scene.at();
    let kept = (scene.unit.phase == Phase::Taking(511) && scene.unit.drives[at].head > 0)
        .then(|| scene.tapes[at].clone());
    let head = scene.unit.drives[at].head as usize;
    scene.go();
    let recorded = scene.is(0x02) && scene.unit.drives[at].head as usize == head + 513;
    if let (Some(kept), true) = (kept, recorded) {
        scene.tapes[at][head + 1..head + 513].copy_from_slice(&kept[head + 1..head + 513]);
    }
}

pub fn part_survives(scene: &mut Scene) {
    let before = scene.go_from();
    if let (true, Phase::Taking(n)) = (scene.is(0x06), before.phase) {
        *scene.memory = n;
    }
    let begins = before.phase == Phase::Rest && scene.unit.phase == Phase::Taking(1);
    if begins && (1..511).contains(scene.memory) {
        scene.unit.staging = before.staging;
        scene.unit.staging[*scene.memory as usize] = scene.event[1];
        scene.unit.phase = Phase::Taking(*scene.memory + 1);
        *scene.memory = 0;
    }
}

pub fn mark_goes_on(scene: &mut Scene) {
    let at = scene.at();
    let writing = scene.commands(WRITE_FILE_MARK) && scene.unit.drives[at].mode == Mode::Writing;
    scene.go();
    if writing && scene.outcome.answer == Answer::Taken {
        scene.unit.drives[at].mode = Mode::Writing;
    }
}

/// The drive is where room for a block is one byte short.
fn one_short(scene: &Scene) -> bool {
    let at = scene.at();
    scene.unit.drives[at].head + ROOM - 1 == scene.tapes[at].len() as u64
}

pub fn write_1540(scene: &mut Scene) {
    let at = scene.at();
    let edge = scene.commands(WRITE) && one_short(scene);
    scene.go();
    if edge && scene.outcome.answer == Answer::Taken {
        scene.unit.drives[at].late = 0;
    }
}

pub fn late_warning(scene: &mut Scene) {
    let before = scene.go_from();
    let at = scene.at();
    let moved = scene.unit.drives[at].head != before.drives[at].head;
    let ordinary = before.drives[at].late == 0;
    if before.phase == Phase::Taking(511) && moved && ordinary && one_short(scene) {
        let head = scene.unit.drives[at].head;
        scene.unit.drives[at] = before.drives[at].clone();
        scene.unit.drives[at].head = head;
        scene.outcome.answer = Answer::Taken;
    }
}

pub fn no_closing(scene: &mut Scene) {
    let at = scene.at();
    let drive = &scene.unit.drives[at];
    let closes = scene.unit.online && drive.mode == Mode::Writing && !drive.exception;
    let head = drive.head;
    // Where the data would be closed after a mark and after a block.
    let kept = [1, 513].map(|size| scene.tapes[at].get(head as usize + size).copied());
    let dropped = closes && scene.is(0x05) && scene.unit.phase == Phase::Rest;
    let marks = scene.commands(WRITE_FILE_MARK);
    scene.go();
    let moved = scene.unit.drives[at].head.wrapping_sub(head);
    let mut put_back = |size: usize, kept: Option<u8>| {
        if let (Some(byte), Some(kept)) = (scene.tapes[at].get_mut(head as usize + size), kept) {
            *byte = kept;
        }
    };
    if dropped || (marks && moved == 1) {
        put_back(1, kept[0]);
    } else if scene.event[0] == 0x02 && moved == 513 {
        put_back(513, kept[1]);
    }
}

pub fn erase_leaves(scene: &mut Scene) {
    let at = scene.at();
    let kept = scene.commands(ERASE).then(|| scene.tapes[at].clone());
    scene.go();
    if let Some(tape) = kept {
        scene.tapes[at] = tape;
    }
}

pub fn no_edge_check(scene: &mut Scene) {
    let before = scene.go_from();
    let at = scene.at();
    if before.phase == Phase::Giving(511) && scene.outcome.answer == Answer::Exception {
        scene.unit.drives[at] = before.drives[at].clone();
        scene.unit.drives[at].head += 513;
        scene.outcome.answer = Answer::Taken;
    }
}

pub fn command_drops(scene: &mut Scene) {
    scene.go();
    if scene.is(0x01) && matches!(scene.unit.phase, Phase::Taking(_)) {
        scene.unit.phase = Phase::Rest;
    }
}

pub fn mark_search_stays(scene: &mut Scene) {
    let search = scene.commands(READ_FILE_MARK);
    let before = scene.go_from();
    let at = scene.at();
    if search && scene.unit.drives[at].latched.ndt && !before.drives[at].exception {
        scene.unit.drives[at].head = before.drives[at].head;
    }
}

pub fn last_byte(scene: &mut Scene) {
    let last = scene.unit.phase == Phase::Taking(511);
    let event = [0x02, scene.unit.staging[510]];
    if last && scene.is(0x02) {
        scene.outcome = scene.unit.step(scene.tapes, &event);
    } else {
        scene.go();
    }
}

pub fn seven_bits(scene: &mut Scene) {
    if scene.event == [0x02, 0xFF] {
        scene.event = &[0x02, 0x7F];
    }
    scene.go();
}
