//! Mutants broken in what no run of `replay` shows: records, tapes and events set from outside.

use super::{edges, kept, kinds, late, refused, scene, Scene};
use crate::state::Unit;
use crate::{Outcome, Tapes};

/// Every hidden mutant by its name; its number is its place, counted from 1.
const HIDDEN: [(&str, fn(&mut Scene)); 82] = [
    ("a head of 16,777,216 is impossible", refused::head_refused),
    ("a head of 16,777,217 is possible", refused::head_passed),
    ("place 0 of a block is possible", refused::place_0),
    ("place 512 of a block is possible", refused::place_512),
    ("7 octets outstanding are possible", refused::octets_7),
    ("no octets outstanding are possible", refused::octets_0),
    ("selected 4 is drive 0", refused::selected_4),
    ("of a place the low 32 bits count", refused::place_low),
    ("a part block given needs no Writing", refused::given_idle),
    ("a part block taken needs no Reading", refused::taken_idle),
    ("drive 3 may have a plug and no cartridge", refused::plug_alone),
    ("drives not selected may write on a protected cartridge", refused::protected_elsewhere),
    ("drives not selected may have a mode and no cartridge", refused::mode_elsewhere),
    ("6 before 5", refused::six_before_five),
    ("4 before 5", refused::four_before_five),
    ("4 before 6", refused::four_before_six),
    ("6 looks at the tape of the selected drive alone", refused::six_selected),
    ("6 for a tape of 16,777,216", refused::six_early),
    ("lines stay after 5", refused::lines_after_five),
    ("lines down after 6", refused::lines_after_six),
    ("bytes after an event are passed over", refused::longer_events),
    ("an event of no bytes is RESET", refused::empty_event),
    ("cartridge in where one is takes its plug", refused::changed_by_three),
    ("kind 03 is a mark", edges::kind_03),
    ("a block one byte past the end is read", edges::block_past_end),
    ("a head above the tape is at end of data", edges::above_is_end),
    ("a block is not looked at again between its bytes", edges::not_again),
    ("EXCEPTION stops a block that is taken", edges::exception_stops),
    ("EXCEPTION does not stop a block that is given", edges::exception_passed),
    ("the 512th byte is not staged without room", edges::not_staged),
    ("cartridge out clears the staging block", edges::staging_cleared),
    ("ERASE leaves the last byte", edges::last_byte_left),
    ("UDE inside a block moves the head", edges::ude_moves),
    ("an unknown kind latches UDE alone", kinds::never),
    ("an unknown kind latches BNL alone", kinds::bnl_alone),
    ("every bad record latches BNL", kinds::always),
    ("a block past the end latches BNL", kinds::past_end),
    ("a head above the tape latches BNL", kinds::above),
    ("end of data inside a block latches BNL", kinds::end_inside),
    ("a mark inside a block latches BNL", kinds::mark_inside),
    ("a head at the end inside a block latches BNL", kinds::at_end_inside),
    ("no BNL inside a block", kinds::lost_inside),
    ("no BNL after byte 512", kinds::lost_behind),
    ("no BNL at the first byte of a block", kinds::lost_first),
    ("no BNL by READ", kinds::lost_read),
    ("no BNL by READ FILE MARK", kinds::lost_search),
    ("no BNL by READ FILE MARK behind blocks", kinds::search_began),
    ("no BNL at kind 03", kinds::kind_03),
    ("no BNL at kind FF", kinds::kind_ff),
    ("no BNL at kinds 80 to FF", kinds::kinds_80),
    ("no BNL without room for a block", kinds::room),
    ("every exception at an unknown kind latches BNL", kinds::any_exception),
    ("UDE alone clears BNL", kinds::ude_clears),
    ("READ STATUS keeps BNL", kinds::kept_by_status),
    ("RESET keeps BNL", kinds::kept_by_reset),
    ("cartridge in clears BNL", kinds::cleared_by_in),
    ("cartridge out clears BNL", kinds::cleared_by_out),
    ("BNL is not shown", kinds::not_shown),
    ("BNL is shown as USL", kinds::shown_as_usl),
    ("BNL is shown as FIL", kinds::shown_as_fil),
    ("BNL is shown with UDE alone", kinds::shown_by_ude),
    ("ST0 overlooks BNL", kinds::st0_overlooks),
    ("late is what fits", late::what_fits),
    ("a late WRITE turns ordinary on a longer tape", late::turns_ordinary),
    ("an ordinary WRITE turns late on a shorter tape", late::turns_late),
    ("a late block without room is lost without EOM", late::lost_silently),
    ("a mark in a late WRITE asks for 514", late::mark_514),
    ("RESET keeps late in drives not selected", kept::by_reset_elsewhere),
    ("cartridge out keeps late in drives not selected", kept::by_out_elsewhere),
    ("ONLINE dropped without room keeps late", kept::by_drop_full),
    ("WRITE FILE MARK without room keeps late", kept::by_mark_full),
    ("EOM with nothing recorded keeps late", kept::by_eom_alone),
    ("late 3 is possible", kept::three_pass),
    ("late above 2 is possible", kept::many_pass),
    ("late above 127 is possible", kept::signed),
    ("late above 2 is possible at Rest", kept::rest_passes),
    ("late above 2 is possible in drives not selected", kept::many_elsewhere),
    ("late in Idle is possible", kept::idle_pass),
    ("late in Reading is possible", kept::reading_pass),
    ("late in Idle is possible with EXCEPTION up", kept::exception_passes),
    ("late outside Writing is possible in drives not selected", kept::outside_elsewhere),
    ("late 2 is impossible", kept::two_refused),
];

/// How many there are.
pub const COUNT: usize = HIDDEN.len();

/// What a hidden mutant does wrong.
pub fn name(number: usize) -> &'static str {
    HIDDEN[number - 1].0
}

/// One event in the model broken by a hidden mutant.
pub fn step(number: usize, unit: &mut Unit, tapes: &mut Tapes, event: &[u8]) -> Outcome {
    let mut memory = 0;
    let mut scene = scene(unit, tapes, event, &mut memory);
    HIDDEN[number - 1].1(&mut scene);
    scene.outcome
}
