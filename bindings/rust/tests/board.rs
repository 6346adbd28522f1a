//! The loop of `examples/board.c`: a strike recorded and read back, a plug that refuses, bad records told apart, a record that is stored; and many bytes in one call.
#![cfg(target_arch = "x86_64")]

use glenoulty::report::{BNL, BOM, EOM, FIL, ST0, ST1, UDE};
use glenoulty::{event, Answer, Lines, Moved, Order, Outcome, Unit, BLOCK, LONGEST, SIZE};

const SELECT: [Order; 4] = [Order::Select0, Order::Select1, Order::Select2, Order::Select3];

/// What a buffer holds before bytes are read into it.
const UNTOUCHED: u8 = 0xA5;

#[derive(Clone, PartialEq, Debug)]
struct Board {
    unit: Unit,
    tapes: [Vec<u8>; 4],
}

/// A strike to record: any bytes.
fn strike(length: usize) -> Vec<u8> {
    (0..length).map(|i| (i * 7 + i / 256) as u8).collect()
}

fn lend(tapes: &mut [Vec<u8>; 4]) -> [&mut [u8]; 4] {
    tapes.each_mut().map(Vec::as_mut_slice)
}

impl Board {
    fn new() -> Board {
        Board { unit: Unit::fresh(), tapes: std::array::from_fn(|_| vec![0; 16384]) }
    }

    fn send(&mut self, event: &[u8]) -> Outcome {
        self.unit.step(lend(&mut self.tapes), event)
    }

    fn write(&mut self, bytes: &[u8]) -> Moved {
        self.unit.write(lend(&mut self.tapes), bytes)
    }

    /// Reads into a buffer of a length: what came of it, and the buffer.
    fn read(&mut self, length: usize) -> (Moved, Vec<u8>) {
        let mut buffer = vec![UNTOUCHED; length];
        let moved = self.unit.read(lend(&mut self.tapes), &mut buffer);
        (moved, buffer)
    }

    fn order(&mut self, order: Order) -> Answer {
        self.send(&event::order(order)).answer
    }

    fn take(&mut self) -> u8 {
        let outcome = self.send(&event::TAKE);
        assert_eq!(outcome.answer, Answer::Taken);
        outcome.byte.expect("a byte is handed out")
    }

    /// READ STATUS, and its six octets.
    fn status(&mut self) -> [u8; 6] {
        assert_eq!(self.order(Order::ReadStatus), Answer::Taken);
        std::array::from_fn(|_| self.take())
    }

    /// A cartridge in a drive that is selected, its first report read, ONLINE up.
    fn ready(drive: u8, protected: bool) -> Board {
        let mut board = Board::new();
        assert_eq!(board.send(&event::cartridge_in(drive, protected)).answer, Answer::Taken);
        assert_eq!(board.send(&event::ONLINE).answer, Answer::Taken);
        assert_eq!(board.status()[..2], if drive == 0 { [0x00, 0x89] } else { [0xC0, 0x81] });
        assert_eq!(board.order(SELECT[usize::from(drive)]), Answer::Taken);
        board.status();
        board
    }
}

#[test]
fn a_strike_is_recorded_and_read_back() {
    let mut board = Board::ready(1, false);
    let strike = strike(BLOCK);
    assert_eq!(board.order(Order::Write), Answer::Taken);
    for &byte in &strike {
        assert_eq!(board.send(&event::give(byte)).answer, Answer::Taken);
    }
    assert_eq!(board.order(Order::WriteFileMark), Answer::Taken);
    assert_eq!(board.order(Order::Bot), Answer::Taken);
    assert_eq!(board.order(Order::Read), Answer::Taken);
    let mut back: Vec<u8> = (1..BLOCK).map(|_| board.take()).collect();
    // the mark behind the block is met with its last byte
    let last = board.send(&event::TAKE);
    assert_eq!(last.answer, Answer::Exception);
    assert_eq!(last.lines, Lines { ready: false, exception: true, direction: false });
    back.extend(last.byte);
    assert_eq!(back, strike);
    assert_eq!(board.status(), [0x81, 0, 0, 0, 0, 0]);
    assert_eq!(board.tapes[1][..2], [1, strike[0]]);
    assert_eq!(board.tapes[1][513..515], [2, 0]);
}

#[test]
fn a_protected_cartridge_keeps_every_byte() {
    let mut board = Board::ready(2, true);
    board.tapes[2].fill(7);
    for order in [Order::Write, Order::WriteFileMark, Order::Erase] {
        assert_eq!(board.order(order), Answer::Exception);
        assert_eq!(board.status()[..2], [0x90, 0x88]);
    }
    assert!(board.tapes[2].iter().all(|&byte| byte == 7));
}

#[test]
fn an_unknown_kind_and_a_block_past_the_end_are_told_apart() {
    let mut board = Board::ready(0, false);
    board.tapes[0] = vec![1; BLOCK];
    assert_eq!(board.order(Order::Read), Answer::Exception);
    assert_eq!(board.status()[..2], [ST0 | UDE, ST1 | BOM]);
    board.tapes[0][0] = 0xE7;
    assert_eq!(board.order(Order::Read), Answer::Exception);
    assert_eq!(board.status()[..2], [ST0 | UDE | BNL, ST1 | BOM]);
}

#[test]
fn a_stored_record_goes_on_where_it_was() {
    let mut board = Board::ready(0, false);
    board.send(&event::underrun(0));
    board.order(Order::ReadStatus);
    let stored = board.unit.as_bytes().to_vec();
    board.unit = Unit::from_bytes(&stored).expect("what was stored is a record");
    assert_eq!(board.unit.lines(), Lines { ready: true, exception: false, direction: true });
    assert_eq!([(); 6].map(|()| board.take()), [0x00, 0x88, 0, 0, 0, 1]);
}

#[test]
fn bytes_that_are_no_record_are_refused() {
    let fresh = Unit::fresh();
    assert_eq!(Unit::from_bytes(fresh.as_bytes()), Some(fresh.clone()));
    assert_eq!(Unit::from_bytes(&[]), None);
    assert_eq!(Unit::from_bytes(&fresh.as_bytes()[1..]), None);
    // version, ONLINE above 1, a phase that is none, a number at Rest, a reserved byte, a mode that is none, BNL above 1,
    // a drive 4 selected
    for (offset, byte) in [(0, 1), (2, 2), (3, 4), (4, 1), (26, 1), (37, 3), (43, 2), (1, 4)] {
        let mut bytes = *fresh.as_bytes();
        bytes[offset] = byte;
        assert_eq!(Unit::from_bytes(&bytes), None, "byte {byte} at {offset}");
    }
    assert_eq!(fresh.as_bytes().len(), SIZE);
}

#[test]
fn refusals_change_nothing() {
    let mut board = Board::ready(3, false);
    let before = board.unit.clone();
    assert_eq!(board.send(&[]).answer, Answer::NoEvent);
    assert_eq!(board.send(&event::cartridge_in(4, false)).answer, Answer::NoEvent);
    assert_eq!(board.send(&event::give(1)).answer, Answer::OutOfStep);
    assert_eq!(board.send(&event::cartridge_out(2)).answer, Answer::WrongSlot);
    board.tapes[0] = vec![0; LONGEST + 1];
    let outcome = board.send(&event::RESET);
    assert!(outcome.answer == Answer::TooLong && outcome.answer.is_refusal());
    assert_eq!(board.unit, before);
}

#[test]
fn empty_tapes_are_lent_too() {
    let mut unit = Unit::fresh();
    let outcome = unit.step([&mut [], &mut [], &mut [], &mut []], &event::cartridge_in(0, false));
    assert_eq!(outcome.answer, Answer::Taken);
    assert_eq!(outcome.byte, None);
}

/// The answer to the last byte, behind how many went over.
fn went(moved: Moved) -> (usize, Answer) {
    (moved.count, moved.outcome.answer)
}

#[test]
fn a_block_is_written_by_one_call_and_read_back_by_one() {
    let mut board = Board::ready(1, false);
    let strike = strike(BLOCK);
    board.order(Order::Write);
    let moved = board.write(&strike);
    assert_eq!(went(moved), (BLOCK, Answer::Taken));
    assert_eq!(moved.outcome.byte, None);
    assert_eq!(moved.outcome.lines, Lines { ready: true, exception: false, direction: false });
    board.write(&strike);
    board.order(Order::WriteFileMark);
    board.order(Order::Bot);
    board.order(Order::Read);
    let (moved, back) = board.read(BLOCK);
    assert_eq!(went(moved), (BLOCK, Answer::Taken));
    assert_eq!(moved.outcome.byte, strike.last().copied());
    assert_eq!(moved.outcome.lines, Lines { ready: true, exception: false, direction: true });
    assert_eq!(back, strike);
}

#[test]
fn a_mark_ends_the_read_with_the_last_byte_before_it() {
    let mut board = Board::ready(1, false);
    let strike = strike(BLOCK);
    board.order(Order::Write);
    board.write(&strike);
    board.order(Order::WriteFileMark);
    board.order(Order::Bot);
    board.order(Order::Read);
    let (moved, back) = board.read(2 * BLOCK);
    assert_eq!(went(moved), (BLOCK, Answer::Exception));
    assert_eq!(moved.outcome.byte, strike.last().copied());
    assert_eq!(moved.outcome.lines, Lines { ready: false, exception: true, direction: false });
    assert_eq!(back[..BLOCK], strike);
    assert!(back[BLOCK..].iter().all(|&byte| byte == UNTOUCHED));
    assert_eq!(board.status()[0], ST0 | FIL);
}

#[test]
fn one_call_goes_over_two_blocks_as_single_events_do() {
    let mut board = Board::ready(2, false);
    board.order(Order::Write);
    let mut single = board.clone();
    let strikes = strike(2 * BLOCK + 9);
    let moved = board.write(&strikes);
    assert_eq!(went(moved), (strikes.len(), Answer::Taken));
    assert_eq!(moved.outcome.lines, Lines::default());
    for &byte in &strikes {
        single.send(&event::give(byte));
    }
    assert_eq!(board, single);
    // the rest of the third block, and all three of them read by pieces that end within them
    assert_eq!(went(board.write(&strikes[9..BLOCK])), (BLOCK - 9, Answer::Taken));
    board.order(Order::WriteFileMark);
    board.order(Order::Bot);
    board.order(Order::Read);
    let pieces = [700, 700, 700].map(|length| board.read(length));
    assert_eq!(went(pieces[1].0), (700, Answer::Taken));
    assert_eq!(went(pieces[2].0), (3 * BLOCK - 1400, Answer::Exception));
    let back: Vec<u8> = pieces.into_iter().flat_map(|(_, bytes)| bytes).collect();
    assert_eq!(back[..3 * BLOCK], [&strikes[..], &strikes[9..BLOCK]].concat());
}

#[test]
fn the_end_of_a_tape_ends_the_write() {
    let mut board = Board::ready(0, false);
    // three blocks and two bytes: early warning after the first
    board.tapes[0] = vec![0; 3 * (1 + BLOCK) + 2];
    board.order(Order::Write);
    let moved = board.write(&[5; 2 * BLOCK]);
    assert_eq!(went(moved), (BLOCK, Answer::Exception));
    assert_eq!(moved.outcome.lines, Lines { ready: false, exception: true, direction: false });
    assert_eq!(went(board.write(&[5])), (0, Answer::OutOfStep));
    assert_eq!(board.status()[0], ST0 | EOM);
    // a late WRITE takes two blocks
    board.order(Order::Write);
    assert_eq!(went(board.write(&[6; 3 * BLOCK])), (2 * BLOCK, Answer::Exception));
    assert_eq!(board.status()[0], ST0 | EOM);
    assert_eq!(board.order(Order::WriteFileMark), Answer::Taken);
    assert_eq!(board.tapes[0][3 * (1 + BLOCK)..], [2, 0]);
}

#[test]
fn a_report_is_read_by_one_call() {
    let mut board = Board::ready(0, false);
    board.send(&event::error(0));
    board.order(Order::ReadStatus);
    let (moved, octets) = board.read(6);
    assert_eq!(went(moved), (6, Answer::Taken));
    assert_eq!(octets, [0x00, ST1 | BOM, 0, 1, 0, 0]);
    // behind the sixth there is nothing to take
    board.order(Order::ReadStatus);
    let (moved, octets) = board.read(8);
    assert_eq!(went(moved), (6, Answer::OutOfStep));
    assert_eq!(octets, [0x00, ST1 | BOM, 0, 0, 0, 0, UNTOUCHED, UNTOUCHED]);
}

#[test]
fn refused_bytes_are_not_counted() {
    let mut board = Board::ready(3, false);
    let before = board.clone();
    assert_eq!(went(board.write(&[1, 2, 3])), (0, Answer::OutOfStep));
    let (moved, buffer) = board.read(3);
    assert_eq!(went(moved), (0, Answer::OutOfStep));
    assert_eq!(moved.outcome.byte, None);
    assert_eq!(buffer, [UNTOUCHED; 3]);
    assert_eq!(board, before);
    board.tapes[0] = vec![0; LONGEST + 1];
    assert_eq!(went(board.write(&[1])), (0, Answer::TooLong));
    assert_eq!(board.unit, before.unit);
}

#[test]
fn without_bytes_nothing_happens() {
    let mut board = Board::ready(0, false);
    let look = |board: &mut Board| {
        let before = board.clone();
        let outcome = Outcome { answer: Answer::Taken, byte: None, lines: board.unit.lines() };
        assert_eq!(board.write(&[]), Moved { count: 0, outcome });
        assert_eq!(board.read(0).0, Moved { count: 0, outcome });
        assert_eq!(*board, before);
    };
    look(&mut Board::new());
    look(&mut board);
    board.order(Order::ReadStatus);
    look(&mut board);
    board.read(6);
    board.order(Order::Write);
    board.write(&[1]);
    look(&mut board);
}
