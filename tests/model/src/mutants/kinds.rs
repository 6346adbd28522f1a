//! Mutants that spoil which kind of bad record is told, and where BNL stands.

use super::Scene;
use crate::commands::*;
use crate::state::{Phase, Unit};
use crate::{Answer, Latched};

/// A step that latched UDE where neither it nor BNL stood before.
struct Bad {
    phase: Phase,
    order: Option<u8>,
    /// The byte at the head that the step left, if the tape has one there.
    kind: Option<u8>,
    above: bool,
    moved: bool,
}

impl Bad {
    fn unknown(&self) -> bool {
        self.kind.is_some_and(|kind| kind > 0x02)
    }

    fn inside(&self) -> bool {
        matches!(self.phase, Phase::Giving(_)) && !self.moved
    }

    /// The edge check behind byte 512.
    fn behind(&self) -> bool {
        self.phase == Phase::Giving(511) && self.moved
    }

    /// The edge check before the first byte.
    fn first(&self) -> bool {
        self.phase == Phase::Rest && self.order.is_none()
    }
}

/// Place of the selected drive, in a record that can be.
fn selected(unit: &Unit) -> Option<usize> {
    (!unit.impossible()).then_some(unit.selected as usize)
}

/// The step that was made, if it found a bad record.
fn bad(scene: &Scene, before: &Unit) -> Option<Bad> {
    let at = selected(before)?;
    let (old, new) = (&before.drives[at], &scene.unit.drives[at]);
    let tape = &scene.tapes[at];
    let latched = !old.latched.ude && !old.latched.bnl && new.latched.ude;
    latched.then(|| Bad {
        phase: before.phase,
        order: scene.event.get(1).copied(),
        kind: tape.get(new.head as usize).copied(),
        above: new.head > tape.len() as u64,
        moved: new.head != old.head,
    })
}

/// Steps, and has BNL at a bad record where this rule wants it.
fn bnl_where(scene: &mut Scene, wants: fn(&Bad) -> bool) {
    let before = scene.go_from();
    if let Some(bad) = bad(scene, &before) {
        scene.unit.drives[before.selected as usize].latched.bnl = wants(&bad);
    }
}

pub fn never(scene: &mut Scene) {
    bnl_where(scene, |_| false);
}

pub fn always(scene: &mut Scene) {
    bnl_where(scene, |_| true);
}

pub fn past_end(scene: &mut Scene) {
    bnl_where(scene, |bad| bad.unknown() || bad.kind == Some(0x01));
}

pub fn above(scene: &mut Scene) {
    bnl_where(scene, |bad| bad.unknown() || bad.above);
}

pub fn end_inside(scene: &mut Scene) {
    bnl_where(scene, |bad| bad.unknown() || bad.kind == Some(0x00));
}

pub fn mark_inside(scene: &mut Scene) {
    bnl_where(scene, |bad| bad.unknown() || bad.kind == Some(0x02));
}

pub fn at_end_inside(scene: &mut Scene) {
    bnl_where(scene, |bad| bad.unknown() || (bad.kind.is_none() && !bad.above));
}

pub fn lost_inside(scene: &mut Scene) {
    bnl_where(scene, |bad| bad.unknown() && !bad.inside());
}

pub fn lost_behind(scene: &mut Scene) {
    bnl_where(scene, |bad| bad.unknown() && !bad.behind());
}

pub fn lost_first(scene: &mut Scene) {
    bnl_where(scene, |bad| bad.unknown() && !bad.first());
}

pub fn lost_read(scene: &mut Scene) {
    bnl_where(scene, |bad| bad.unknown() && bad.order != Some(READ));
}

pub fn lost_search(scene: &mut Scene) {
    bnl_where(scene, |bad| bad.unknown() && bad.order != Some(READ_FILE_MARK));
}

/// As if the kind were looked at where the search began.
pub fn search_began(scene: &mut Scene) {
    bnl_where(scene, |bad| bad.unknown() && (bad.order.is_none() || !bad.moved));
}

pub fn kind_03(scene: &mut Scene) {
    bnl_where(scene, |bad| bad.unknown() && bad.kind != Some(0x03));
}

pub fn kind_ff(scene: &mut Scene) {
    bnl_where(scene, |bad| bad.unknown() && bad.kind != Some(0xFF));
}

/// As if kinds had a sign.
pub fn kinds_80(scene: &mut Scene) {
    bnl_where(scene, |bad| bad.unknown() && bad.kind < Some(0x80));
}

/// As if an unknown kind were looked at together with the room of a block.
pub fn room(scene: &mut Scene) {
    let before = scene.go_from();
    let Some(at) = selected(&before) else { return };
    let drive = &mut scene.unit.drives[at];
    if drive.head + 513 > scene.tapes[at].len() as u64 {
        drive.latched.bnl &= before.drives[at].latched.bnl;
    }
}

pub fn bnl_alone(scene: &mut Scene) {
    let before = scene.go_from();
    if bad(scene, &before).is_some_and(|bad| bad.unknown()) {
        scene.unit.drives[before.selected as usize].latched.ude = false;
    }
}

pub fn any_exception(scene: &mut Scene) {
    let before = scene.go_from();
    let Some(at) = selected(&before) else { return };
    let drive = &mut scene.unit.drives[at];
    let unknown = scene.tapes[at].get(drive.head as usize).is_some_and(|kind| *kind > 0x02);
    drive.latched.bnl |= unknown && drive.exception && !before.drives[at].exception;
}

pub fn ude_clears(scene: &mut Scene) {
    let before = scene.go_from();
    let Some(at) = selected(&before) else { return };
    let drive = &mut scene.unit.drives[at];
    let known = scene.tapes[at].get(drive.head as usize).is_none_or(|kind| *kind < 0x03);
    if drive.latched.ude && !before.drives[at].latched.ude && known {
        drive.latched.bnl = false;
    }
}

/// Latches BNL where another bit was latched that was not before.
fn with_bit(scene: &mut Scene, bit: fn(&Latched) -> bool) {
    let before = scene.go_from();
    for (old, new) in before.drives.iter().zip(&mut scene.unit.drives) {
        new.latched.bnl |= bit(&new.latched) && !bit(&old.latched);
    }
}

pub fn with_ndt(scene: &mut Scene) {
    with_bit(scene, |latched| latched.ndt);
}

pub fn with_fil(scene: &mut Scene) {
    with_bit(scene, |latched| latched.fil);
}

/// BNL as it was before, where this event came.
fn kept_by(scene: &mut Scene, event: &[u8]) {
    let before = scene.go_from();
    if scene.event == event && scene.taken() {
        for (old, new) in before.drives.iter().zip(&mut scene.unit.drives) {
            new.latched.bnl |= old.latched.bnl;
        }
    }
}

pub fn kept_by_status(scene: &mut Scene) {
    kept_by(scene, &[0x01, READ_STATUS]);
}

pub fn kept_by_reset(scene: &mut Scene) {
    kept_by(scene, &[0x06]);
}

/// BNL gone where a cartridge went in or out.
fn cleared_by(scene: &mut Scene, kind: u8) {
    scene.go();
    if scene.event.first() == Some(&kind) && scene.taken() {
        scene.unit.drives[scene.event[1] as usize & 3].latched.bnl = false;
    }
}

pub fn cleared_by_in(scene: &mut Scene) {
    cleared_by(scene, 0x07);
}

pub fn cleared_by_out(scene: &mut Scene) {
    cleared_by(scene, 0x08);
}

/// Another octet 0 where a report told of BNL.
fn shown(scene: &mut Scene, octet: fn(u8) -> u8) {
    let before = scene.go_from();
    let reported = scene.event == [0x01, READ_STATUS] && scene.outcome.answer == Answer::Taken;
    let Some(at) = selected(&before) else { return };
    if reported && before.drives[at].latched.bnl {
        scene.unit.octets[0] = octet(scene.unit.octets[0]);
    }
}

pub fn not_shown(scene: &mut Scene) {
    shown(scene, |octet| octet & !0x02);
}

pub fn shown_as_usl(scene: &mut Scene) {
    shown(scene, |octet| octet & !0x02 | 0x20);
}

pub fn shown_as_fil(scene: &mut Scene) {
    shown(scene, |octet| octet & !0x02 | 0x01);
}

pub fn shown_by_ude(scene: &mut Scene) {
    shown(scene, |octet| if octet & 0x04 == 0 { octet & !0x02 } else { octet });
}

pub fn st0_overlooks(scene: &mut Scene) {
    shown(scene, |octet| if octet == 0x82 { 0x02 } else { octet });
}
