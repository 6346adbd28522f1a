//! Mutants that spoil which bytes a call with many of them puts where.

use super::many::{place, Call};
use crate::state::{Phase, Unit, BLOCK, ROOM};
use crate::Answer;
use std::ops::Range;

/// The places in the staging block that a call filled which ended inside a block.
fn staged(call: &Call) -> Option<Range<usize>> {
    match call.unit.phase {
        Phase::Taking(n) if call.gives && call.went.count > 0 => {
            let end = n as usize;
            Some(end.saturating_sub(call.went.count)..end)
        }
        _ => None,
    }
}

pub fn staged_too_far(call: &mut Call) {
    let before = call.go_from();
    if let Some(Range { start, end }) = staged(call) {
        call.unit.staging.copy_within(start..end, start + 1);
        call.unit.staging[start] = before.staging[start];
    }
}

pub fn not_staged(call: &mut Call) {
    let before = call.go_from();
    if call.gives && before.phase == Phase::Rest && call.went.count >= BLOCK as usize {
        let places = staged(call).unwrap_or(0..0);
        let part = call.unit.staging;
        call.unit.staging = before.staging;
        call.unit.staging[places.clone()].copy_from_slice(&part[places]);
    }
}

pub fn written_early(call: &mut Call) {
    call.go();
    if let Some(places) = staged(call) {
        let at = call.unit.selected as usize;
        let block = call.unit.drives[at].head as usize + 1;
        let on_tape = block + places.start..block + places.end;
        if let Some(part) = call.tapes[at].get_mut(on_tape) {
            part.copy_from_slice(&call.unit.staging[places]);
        }
    }
}

pub fn part_lost(call: &mut Call) {
    let before = call.go_from();
    let Some(at) = call.at().filter(|_| call.gives) else { return };
    let head = before.drives[at].head as usize;
    if call.unit.drives[at].head as usize != head {
        call.tapes[at][head + 1..][..place(before.phase)].fill(0);
    }
}

/// Bytes given up to the end of a block, and whether others are left for the next one.
fn first_block(call: &mut Call) -> Option<usize> {
    let first = BLOCK as usize - place(call.unit.phase);
    if !call.gives || call.bytes.len() <= first {
        call.go();
        return None;
    }
    call.go_to(first);
    call.at().filter(|_| call.went.last.answer == Answer::Taken)
}

pub fn room_once(call: &mut Call) {
    if let Some(at) = first_block(call) {
        let length = call.tapes[at].len();
        call.tapes[at].resize(length + 4 * ROOM as usize, 0);
        call.go_on();
        call.tapes[at].truncate(length);
    }
}

pub fn late_once(call: &mut Call) {
    if let Some(at) = first_block(call) {
        let drive = &mut call.unit.drives[at];
        drive.late += (drive.late == 1) as u8;
        call.go_on();
    }
}

pub fn place_short(call: &mut Call) {
    call.go();
    if call.went.count > 0 {
        call.unit.phase = match call.unit.phase {
            Phase::Taking(n @ 2..) => Phase::Taking(n - 1),
            Phase::Giving(n @ 2..) => Phase::Giving(n - 1),
            phase => phase,
        };
    }
}

pub fn place_512(call: &mut Call) {
    let before = call.go_from();
    let report = matches!(before.phase, Phase::Status(_));
    let ended = call.went.count > 0 && call.unit.phase == Phase::Rest;
    if ended && !report && call.went.last.answer == Answer::Taken {
        call.unit.phase = if call.gives { Phase::Taking(BLOCK) } else { Phase::Giving(BLOCK) };
    }
}

/// Where on the tape of the selected drive the first data byte stood that a call took.
fn first_taken(call: &Call, before: &Unit) -> Option<(usize, usize)> {
    let data = !call.gives && !matches!(before.phase, Phase::Status(_));
    let at = call.at().filter(|_| data)?;
    Some((at, before.drives[at].head as usize + 1 + place(before.phase)))
}

pub fn past_the_block(call: &mut Call) {
    let before = call.go_from();
    if let Some((at, first)) = first_taken(call, &before) {
        let taken = &mut call.bytes[..call.went.count];
        let on_tape = call.tapes[at].iter().skip(first);
        taken.iter_mut().zip(on_tape).for_each(|(byte, on_tape)| *byte = *on_tape);
    }
}

pub fn taken_too_far(call: &mut Call) {
    let before = call.go_from();
    if let Some((at, first)) = first_taken(call, &before) {
        let stretch = call.went.count.min(BLOCK as usize - place(before.phase));
        let on_tape = call.tapes[at].iter().skip(first + 1);
        let taken = &mut call.bytes[..stretch];
        taken.iter_mut().zip(on_tape).for_each(|(byte, on_tape)| *byte = *on_tape);
    }
}

pub fn octets_from_first(call: &mut Call) {
    let before = call.go_from();
    if let Phase::Status(k) = before.phase {
        let octets = call.went.count.min(k as usize);
        call.bytes[..octets].copy_from_slice(&before.octets[..octets]);
    }
}

pub fn exception_passed(call: &mut Call) {
    let inside = !call.gives && matches!(call.unit.phase, Phase::Giving(_));
    let up = call.at().filter(|&at| inside && call.unit.drives[at].exception);
    let Some(at) = up else {
        return call.go();
    };
    call.unit.drives[at].exception = false;
    call.go();
    call.unit.drives[at].exception = true;
    call.went.last.lines = call.unit.lines();
}

pub fn rest_cleared(call: &mut Call) {
    call.go();
    if !call.gives {
        call.bytes[call.went.count..].fill(0);
    }
}

pub fn absent_put(call: &mut Call) {
    call.go();
    if !call.gives && call.went.last.byte.is_none() {
        call.bytes.iter_mut().skip(call.went.count).take(1).for_each(|byte| *byte = 0);
    }
}

pub fn last_not_put(call: &mut Call) {
    let kept = call.bytes.to_vec();
    call.go();
    if !call.gives && call.ended_with_byte(&call.went) {
        let last = call.went.count - 1;
        call.bytes[last] = kept[last];
    }
}

pub fn undone(call: &mut Call) {
    let before = call.go_from();
    if call.refused() {
        *call.unit = before;
    }
}
