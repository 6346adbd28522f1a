//! Mutants that spoil where a call with many bytes stops, what it counts and what it tells.

use super::many::{place, Call};
use crate::state::{Mode, Phase, LONGEST};
use crate::{Answer, Lines, Outcome, Went};

pub fn stops_before(call: &mut Call) {
    let went = call.tried(call.bytes);
    call.go_to(went.count - call.ended_with_byte(&went) as usize);
}

pub fn goes_on(call: &mut Call) {
    call.go();
    let left = call.bytes.len() > call.went.count + !call.ended_with_byte(&call.went) as usize;
    if left && call.went.last.answer == Answer::Exception {
        call.went.last = call.event();
    }
}

pub fn one_block(call: &mut Call) {
    let status = matches!(call.unit.phase, Phase::Status(_));
    call.go_to(if status { usize::MAX } else { 512 - place(call.unit.phase) });
}

pub fn report_alone(call: &mut Call) {
    call.go_to(match call.unit.phase {
        Phase::Status(k) => k.clamp(1, 6) as usize,
        _ => usize::MAX,
    });
}

pub fn at_most_1024(call: &mut Call) {
    call.go_to(1024);
}

pub fn low_16(call: &mut Call) {
    call.go_to(call.bytes.len() % 65_536);
}

pub fn refused_counted(call: &mut Call) {
    call.go();
    call.went.count += call.refused() as usize;
}

pub fn without_byte_counted(call: &mut Call) {
    call.go();
    let exception = call.went.last.answer == Answer::Exception;
    call.went.count += (exception && !call.ended_with_byte(&call.went)) as usize;
}

pub fn last_not_counted(call: &mut Call) {
    call.go();
    call.went.count -= call.ended_with_byte(&call.went) as usize;
}

pub fn first_result(call: &mut Call) {
    let first = call.tried(&call.bytes[..call.bytes.len().min(1)]).last;
    call.go();
    call.went.last = first;
}

pub fn lines_before(call: &mut Call) {
    let lines = call.unit.lines();
    call.go();
    if call.went != Went::IMPOSSIBLE {
        call.went.last.lines = lines;
    }
}

pub fn byte_not_shown(call: &mut Call) {
    call.go();
    call.went.last.byte = None;
}

/// Calls without a byte, told otherwise.
fn nothing(call: &mut Call, tell: impl FnOnce(&mut Call) -> Outcome) {
    call.go();
    if call.bytes.is_empty() {
        call.went.last = tell(call);
    }
}

pub fn nothing_down(call: &mut Call) {
    nothing(call, |call| Outcome { lines: Lines::default(), ..call.went.last });
}

pub fn nothing_five(call: &mut Call) {
    nothing(call, |call| match call.unit.impossible() {
        true => Outcome::IMPOSSIBLE,
        false => call.went.last,
    });
}

pub fn nothing_six(call: &mut Call) {
    nothing(call, |call| match call.tapes.iter().any(|tape| tape.len() as u64 > LONGEST) {
        true => Outcome { answer: Answer::TapeTooLong, ..call.went.last },
        false => call.went.last,
    });
}

pub fn nothing_two(call: &mut Call) {
    nothing(call, |call| match call.tried(&[0]).last {
        refused if refused.answer == Answer::OutOfStep => refused,
        _ => call.went.last,
    });
}

pub fn nothing_drive_0(call: &mut Call) {
    nothing(call, |call| {
        let mut unit = call.unit.clone();
        unit.selected %= 4;
        Outcome { lines: unit.lines(), ..call.went.last }
    });
}

pub fn nothing_checked(call: &mut Call) {
    let looks = !call.gives && call.bytes.is_empty() && call.unit.phase == Phase::Rest;
    let Some(at) = call.at().filter(|_| looks) else {
        return call.go();
    };
    let reads = call.unit.drives[at].mode == Mode::Reading;
    let before = call.unit.clone();
    let outcome = call.event();
    if !reads || outcome.answer != Answer::Exception {
        *call.unit = before;
    }
    call.go();
}
