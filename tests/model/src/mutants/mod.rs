//! Models with one rule broken on purpose: a comparison that misses one of them has no teeth.

mod bytes;
mod counted;
mod edges;
pub mod hidden;
mod kept;
mod kinds;
mod late;
pub mod many;
mod orders;
mod refused;
mod status;
mod stretches;
mod text;

use crate::events;
use crate::replay::replay_with;
use crate::state::{Phase, Unit};
use crate::{Answer, Lines, Outcome, Tapes};

/// One event in a broken model. A mutant calls `go` for the true step and bends what is around it.
struct Scene<'a> {
    unit: &'a mut Unit,
    tapes: &'a mut Tapes,
    event: &'a [u8],
    outcome: Outcome,
    /// Set where the mutant lies about the lines too.
    lines: Option<Lines>,
    /// What a mutant remembers from one event to the next.
    memory: &'a mut u64,
}

/// How a mutant is broken: in a step, or in the text around the steps.
enum Break {
    Step(fn(&mut Scene)),
    Text(fn(&[u8]) -> Vec<u8>),
}

use Break::{Step, Text};

/// Every mutant by its name; its number is its place, counted from 1.
const MUTANTS: [(&str, Break); 70] = [
    ("always answers 2", Step(orders::always_two)),
    ("constant octets", Step(status::constant_octets)),
    ("takes events and changes nothing", Step(orders::changes_nothing)),
    ("records the first block, only moves the head for later ones", Step(bytes::first_block_only)),
    ("invents an error for every underrun", Step(status::invented_counts)),
    ("cartridge out latches no CNI", Step(status::no_cni)),
    ("counters cleared after the sixth octet", Step(status::late_clearing)),
    ("part block survives RESET", Step(bytes::part_survives)),
    ("ONLINE dropped rewinds every drive", Step(orders::rewinds_all)),
    ("WRITE FILE MARK goes on Writing", Step(bytes::mark_goes_on)),
    ("WRITE is ordinary with 1540", Step(bytes::write_1540)),
    ("early warning one byte late", Step(bytes::late_warning)),
    ("ST0 overlooks WRP", Step(status::st0_overlooks_wrp)),
    ("ST1 overlooks BOM", Step(status::st1_overlooks_bom)),
    ("error counter wraps", Step(status::errors_wrap)),
    ("underrun counter stops at 65,534", Step(status::underruns_short)),
    ("SELECT of a drive with EXCEPTION answers 1", Step(orders::select_answers_1)),
    ("a low level repeated rewinds", Step(orders::repeated_rewinds)),
    ("recording does not close the data", Step(bytes::no_closing)),
    ("ERASE leaves the tape", Step(bytes::erase_leaves)),
    ("no edge check after byte 512", Step(bytes::no_edge_check)),
    ("DIRECTION stays with EXCEPTION up", Step(status::direction_stays)),
    ("a command inside a block given drops it", Step(bytes::command_drops)),
    ("cartridge out ends Status", Step(status::out_ends_status)),
    ("READ STATUS ends the transfer", Step(status::status_ends)),
    ("cartridge tested before ONLINE", Step(orders::cartridge_first)),
    ("READ FILE MARK stays where it was at end of data", Step(bytes::mark_search_stays)),
    ("an illegal command ends the transfer", Step(orders::illegal_ends)),
    ("RESET drops ONLINE", Step(orders::reset_drops)),
    ("cartridge in clears EXCEPTION", Step(status::in_clears)),
    ("WRITE on a protected cartridge latches ILL", Step(status::protected_ill)),
    ("cartridge out elsewhere answers 0", Step(status::out_elsewhere)),
    ("BOT wants ONLINE", Step(orders::bot_wants_online)),
    ("ONLINE dropped with EXCEPTION keeps the mode", Step(orders::drop_keeps_mode)),
    ("unknown code 41 is WRITE", Step(orders::loose_code)),
    ("last byte of a block is the one before it", Step(bytes::last_byte)),
    ("byte FF is staged as 7F", Step(bytes::seven_bits)),
    ("drive body 84 is drive 0", Step(orders::loose_body)),
    ("end of data latches BNL", Step(kinds::with_ndt)),
    ("a mark passed latches BNL", Step(kinds::with_fil)),
    ("WRITE is late with 1541", Step(late::late_1541)),
    ("every WRITE is late", Step(late::always_late)),
    ("a late WRITE is refused", Step(late::refused)),
    ("a late WRITE asks for two blocks", Step(late::for_two)),
    ("a late WRITE is content with 513", Step(late::write_513)),
    ("a late block is content with 513", Step(late::block_513)),
    ("a late block asks for 1541", Step(late::ordinary_room)),
    ("a late WRITE takes one block", Step(late::one_block)),
    ("a late WRITE takes three blocks", Step(late::three_blocks)),
    ("late blocks are not counted", Step(late::uncounted)),
    ("no late WRITE after another", Step(late::one_write)),
    ("no EOM after the second late block", Step(late::no_eom_second)),
    ("no EOM where another late block has no room", Step(late::no_eom_room)),
    ("early warning makes a WRITE late", Step(late::goes_on_late)),
    ("ordinary blocks are counted too", Step(late::counts_ordinary)),
    ("RESET keeps late", Step(kept::by_reset)),
    ("cartridge out keeps late", Step(kept::by_out)),
    ("ONLINE dropped keeps late", Step(kept::by_drop)),
    ("ONLINE dropped with EXCEPTION keeps late", Step(kept::by_drop_exception)),
    ("WRITE FILE MARK keeps late", Step(kept::by_mark)),
    ("EOM keeps late", Step(kept::by_eom)),
    ("WRITE without room is late", Step(kept::by_refused_write)),
    ("READ STATUS clears late", Step(kept::status_clears)),
    ("an illegal order clears late", Step(kept::illegal_clears)),
    ("a count clears late", Step(kept::count_clears)),
    ("ONLINE raised clears late", Step(kept::raise_clears)),
    ("replay: a cut-off event is not answered", Text(text::cut_off_unanswered)),
    ("replay: numbers wrap at 65,536", Text(text::numbers_wrap)),
    ("replay: lower-case digits", Text(text::lower_case)),
    ("replay: goes on after an answer 4", Text(text::goes_on)),
];

/// How many mutants there are.
pub const COUNT: usize = MUTANTS.len();

/// What a mutant does wrong.
pub fn name(number: usize) -> &'static str {
    MUTANTS[number - 1].0
}

/// The text that a mutant makes of a trace.
pub fn replay(number: usize, trace: &[u8]) -> Vec<u8> {
    match &MUTANTS[number - 1].1 {
        Text(text) => text(trace),
        Step(step) => {
            let mut memory = 0;
            replay_with(trace, |unit, tapes, event| play(*step, unit, tapes, event, &mut memory))
        }
    }
}

/// One event in the model broken by a mutant.
pub fn step(
    number: usize,
    unit: &mut Unit,
    tapes: &mut Tapes,
    event: &[u8],
    memory: &mut u64,
) -> Outcome {
    match &MUTANTS[number - 1].1 {
        // These were made for records that can be.
        Step(step) if !unit.impossible() && !event.is_empty() => {
            play(*step, unit, tapes, event, memory)
        }
        _ => unit.step(tapes, event),
    }
}

/// Whether a mutant breaks a step, and not the text around it.
pub fn breaks_steps(number: usize) -> bool {
    matches!(MUTANTS[number - 1].1, Step(_))
}

fn play(
    step: fn(&mut Scene),
    unit: &mut Unit,
    tapes: &mut Tapes,
    event: &[u8],
    memory: &mut u64,
) -> Outcome {
    let mut scene = scene(unit, tapes, event, memory);
    step(&mut scene);
    scene.outcome.lines = scene.lines.unwrap_or(scene.unit.lines());
    scene.outcome
}

/// A step that is not made yet.
fn scene<'a>(
    unit: &'a mut Unit,
    tapes: &'a mut Tapes,
    event: &'a [u8],
    memory: &'a mut u64,
) -> Scene<'a> {
    let outcome = Outcome { answer: Answer::OutOfStep, byte: None, lines: Lines::default() };
    Scene { unit, tapes, event, outcome, lines: None, memory }
}

impl Scene<'_> {
    /// The true step.
    fn go(&mut self) {
        self.outcome = self.unit.step(self.tapes, self.event);
    }

    /// The true step, and the record before it.
    fn go_from(&mut self) -> Unit {
        let before = self.unit.clone();
        self.go();
        before
    }

    fn at(&self) -> usize {
        self.unit.selected as usize
    }

    fn is(&self, kind: u8) -> bool {
        self.event[0] == kind && self.event.len() == events::length(kind)
    }

    /// This command, at Rest.
    fn commands(&self, octet: u8) -> bool {
        self.is(0x01) && self.event[1] == octet && self.unit.phase == Phase::Rest
    }

    fn taken(&self) -> bool {
        self.outcome.answer.is_taken()
    }
}
