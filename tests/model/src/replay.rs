//! The program `replay`: raw events in, text out.

use crate::{events, Answer, Lines, Outcome, Tapes, Unit};

/// Bytes of each of the four tapes.
pub const TAPE: usize = 16_384;
/// The first line.
pub const TITLE: &[u8] = b"tape unit, 4 drives\n";

/// The whole text for a raw trace.
pub fn replay(trace: &[u8]) -> Vec<u8> {
    replay_with(trace, |unit, tapes, event| unit.step(tapes, event))
}

/// The same with another step in the unit's place.
pub fn replay_with(
    trace: &[u8],
    mut step: impl FnMut(&mut Unit, &mut Tapes, &[u8]) -> Outcome,
) -> Vec<u8> {
    let mut unit = Unit::fresh();
    let mut tapes = blank_tapes();
    let mut text = TITLE.to_vec();
    let mut number = Number::zero();
    for event in events::all(trace) {
        let outcome = step(&mut unit, &mut tapes, event);
        number.count();
        put_line(&mut text, &number, &outcome);
        // What follows an event that is none cannot be cut with any sense.
        if outcome.answer == Answer::Malformed {
            break;
        }
    }
    text.extend_from_slice(number.digits());
    text.extend_from_slice(b" events\n");
    text
}

/// Four tapes of zeros.
pub fn blank_tapes() -> Tapes {
    std::array::from_fn(|_| vec![0; TAPE])
}

/// One answered event: number, answer, lines, byte.
fn put_line(text: &mut Vec<u8>, number: &Number, outcome: &Outcome) {
    let Lines { ready, exception, direction } = outcome.lines;
    let letter = |up, letter| if up { letter } else { b'-' };
    let [high, low] = match outcome.byte {
        Some(byte) => [hex(byte >> 4), hex(byte & 15)],
        None => *b"--",
    };
    text.extend_from_slice(number.digits());
    text.extend_from_slice(&[
        b' ',
        b'0' + outcome.answer as u8,
        b' ',
        letter(ready, b'R'),
        letter(exception, b'E'),
        letter(direction, b'D'),
        b' ',
        high,
        low,
        b'\n',
    ]);
}

/// One hexadecimal digit.
fn hex(value: u8) -> u8 {
    b"0123456789ABCDEF"[value as usize]
}

/// A decimal number that is counted up in place, which is much faster than to print it anew.
struct Number {
    digits: [u8; 20],
    start: usize,
}

impl Number {
    fn zero() -> Number {
        Number { digits: [b'0'; 20], start: 19 }
    }

    fn digits(&self) -> &[u8] {
        &self.digits[self.start..]
    }

    fn count(&mut self) {
        let mut place = 19;
        while self.digits[place] == b'9' {
            self.digits[place] = b'0';
            place -= 1;
        }
        self.digits[place] += 1;
        self.start = self.start.min(place);
    }
}

#[cfg(test)]
mod tests {
    use super::*;

    #[test]
    fn numbers_count_up_through_every_length() {
        let mut number = Number::zero();
        for expected in 1..=1_000_001 {
            number.count();
            assert_eq!(number.digits(), expected.to_string().as_bytes());
        }
    }

    #[test]
    fn digits_are_upper_case() {
        let mut line = Vec::new();
        let lines = Lines { ready: true, exception: true, direction: true };
        let outcome = Outcome { answer: Answer::TapeTooLong, byte: Some(0xAF), lines };
        put_line(&mut line, &Number::zero(), &outcome);
        assert_eq!(line, b"0 6 RED AF\n");
    }
}
