//! The functions of `libboard.a`, each behind a safe one: slices are real and do not overlap.

use crate::SIZE;
use core::mem::size_of;

/// `glenoulty_lines_shown` of the header.
#[derive(Clone, Copy, Default)]
#[repr(C)]
pub struct Lines {
    pub ready: u8,
    pub exception: u8,
    pub direction: u8,
}

/// `glenoulty_result` of the header, whose last three bytes are lines.
#[derive(Clone, Copy, Default)]
#[repr(C)]
pub struct Outcome {
    pub answer: u8,
    pub given: u8,
    pub byte: u8,
    pub lines: Lines,
}

// what the library writes, byte for byte
const _: () = assert!(size_of::<Outcome>() == 6 && size_of::<Lines>() == 3);

/// Declares functions that are lent a record, four tapes, bytes and a place for the result.
macro_rules! declare {
    ($(fn $name:ident($bytes:ty) $(-> $count:ty)?;)*) => {
        extern "C" {
            $(fn $name(
                record: *mut u8,
                record_length: usize,
                tape0: *mut u8,
                tape0_length: usize,
                tape1: *mut u8,
                tape1_length: usize,
                tape2: *mut u8,
                tape2_length: usize,
                tape3: *mut u8,
                tape3_length: usize,
                bytes: $bytes,
                bytes_length: usize,
                result: *mut Outcome,
            ) $(-> $count)?;)*
        }
    };
}

declare! {
    fn glenoulty_step(*const u8);
    fn glenoulty_give(*const u8) -> usize;
    fn glenoulty_take(*mut u8) -> usize;
}

extern "C" {
    fn glenoulty_fresh(record: *mut u8, record_length: usize) -> u8;
    fn glenoulty_lines(record: *const u8, record_length: usize, lines: *mut Lines) -> u8;
}

/// Calls a function that was declared so, with the pointer and the length of a slice: what it returns, and the result.
macro_rules! call {
    ($name:ident, $record:ident, $tapes:ident, $bytes:expr, $length:expr) => {{
        let [tape0, tape1, tape2, tape3] = $tapes;
        let (bytes, bytes_length) = ($bytes, $length);
        let mut result = Outcome::default();
        // SAFETY: each pointer and length are a slice's, never null, and no slice lent for change overlaps another
        let returned = unsafe {
            $name(
                $record.as_mut_ptr(),
                $record.len(),
                tape0.as_mut_ptr(),
                tape0.len(),
                tape1.as_mut_ptr(),
                tape1.len(),
                tape2.as_mut_ptr(),
                tape2.len(),
                tape3.as_mut_ptr(),
                tape3.len(),
                bytes,
                bytes_length,
                &mut result,
            )
        };
        (returned, result)
    }};
}

pub fn fresh(record: &mut [u8; SIZE]) -> u8 {
    // SAFETY: the pointer and the length are the array's
    unsafe { glenoulty_fresh(record.as_mut_ptr(), record.len()) }
}

pub fn step(record: &mut [u8; SIZE], tapes: [&mut [u8]; 4], event: &[u8]) -> Outcome {
    let ((), result) = call!(glenoulty_step, record, tapes, event.as_ptr(), event.len());
    result
}

/// How many bytes went over, and the result of the last event.
pub fn give(record: &mut [u8; SIZE], tapes: [&mut [u8]; 4], bytes: &[u8]) -> (usize, Outcome) {
    call!(glenoulty_give, record, tapes, bytes.as_ptr(), bytes.len())
}

/// How many bytes came, to the front of `bytes`, and the result of the last event.
pub fn take(record: &mut [u8; SIZE], tapes: [&mut [u8]; 4], bytes: &mut [u8]) -> (usize, Outcome) {
    call!(glenoulty_take, record, tapes, bytes.as_mut_ptr(), bytes.len())
}

pub fn lines(record: &[u8; SIZE]) -> Option<Lines> {
    let mut lines = Lines::default();
    // SAFETY: the pointer and the length are the array's, and `lines` is this function's own
    let answer = unsafe { glenoulty_lines(record.as_ptr(), record.len(), &mut lines) };
    (answer == 0).then_some(lines)
}
