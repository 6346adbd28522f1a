//! Mutants that spoil answers, commands, ONLINE and RESET.

use super::Scene;
use crate::commands::*;
use crate::{Answer, Mode};

pub fn always_two(_: &mut Scene) {}

pub fn changes_nothing(scene: &mut Scene) {
    let before = scene.go_from();
    *scene.unit = before;
}

pub fn rewinds_all(scene: &mut Scene) {
    let before = scene.go_from();
    if before.online && !scene.unit.online {
        scene.unit.drives.iter_mut().for_each(|drive| drive.head = 0);
    }
}

pub fn select_answers_1(scene: &mut Scene) {
    let select = SELECT.iter().any(|&code| scene.commands(code));
    scene.go();
    if select && scene.unit.drives[scene.at()].exception {
        scene.outcome.answer = Answer::Exception;
    }
}

pub fn repeated_rewinds(scene: &mut Scene) {
    let before = scene.go_from();
    if scene.is(0x05) && scene.taken() && !before.online {
        scene.unit.drives[scene.unit.selected as usize].head = 0;
    }
}

pub fn cartridge_first(scene: &mut Scene) {
    let tape_order = [WRITE, READ, WRITE_FILE_MARK, READ_FILE_MARK];
    let order = tape_order.iter().any(|&code| scene.commands(code));
    let before = scene.go_from();
    let drive = &before.drives[before.selected as usize];
    if order && !before.online && !drive.loaded && !drive.exception {
        let latched = &mut scene.unit.drives[before.selected as usize].latched;
        latched.ill = drive.latched.ill;
        latched.cni = true;
    }
}

pub fn illegal_ends(scene: &mut Scene) {
    scene.go();
    let at = scene.at();
    if scene.is(0x01) && scene.outcome.answer == Answer::Exception {
        scene.unit.drives[at].mode = Mode::Idle;
    }
}

pub fn reset_drops(scene: &mut Scene) {
    scene.go();
    if scene.is(0x06) {
        scene.unit.online = false;
    }
}

pub fn bot_wants_online(scene: &mut Scene) {
    let bot = scene.commands(BOT) && !scene.unit.online;
    let before = scene.go_from();
    if bot && scene.outcome.answer == Answer::Taken {
        *scene.unit = before;
        let at = scene.at();
        scene.unit.drives[at].latched.ill = true;
        scene.unit.drives[at].exception = true;
        scene.outcome.answer = Answer::Exception;
    }
}

pub fn drop_keeps_mode(scene: &mut Scene) {
    let before = scene.go_from();
    let at = scene.at();
    if scene.is(0x05) && scene.taken() && before.drives[at].exception {
        scene.unit.drives[at].mode = before.drives[at].mode;
    }
}

pub fn loose_code(scene: &mut Scene) {
    if scene.commands(0x41) {
        scene.event = &[0x01, WRITE];
    }
    scene.go();
}

pub fn loose_body(scene: &mut Scene) {
    if scene.event == [0x09, 0x84] {
        scene.event = &[0x09, 0x00];
    }
    scene.go();
}
