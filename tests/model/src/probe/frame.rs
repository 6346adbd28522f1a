//! Frames: what is asked of a board, as bytes. `tests/probe/README.md` has the layout.

use std::ops::Range;

/// A lent tape: so many bytes, all 0 but for those given from a place on.
#[derive(Clone, PartialEq, Eq, Debug, Default)]
pub struct Lent {
    pub length: u32,
    pub at: u32,
    pub given: Vec<u8>,
}

/// What is done with a record and four tapes.
#[derive(Clone, PartialEq, Eq, Debug)]
pub enum Asked {
    /// One event.
    Event(Vec<u8>),
    /// Bytes given in one call.
    Give(Vec<u8>),
    /// A buffer to take bytes into in one call, as it is before.
    Take(Vec<u8>),
}

/// A call with all that it is lent.
#[derive(Clone, PartialEq, Eq, Debug)]
pub struct Step {
    pub record: Vec<u8>,
    pub tapes: [Lent; 4],
    pub asked: Asked,
}

/// What a board is asked for.
#[derive(Clone, PartialEq, Eq, Debug)]
pub enum Frame {
    Step(Step),
    /// How long a record is.
    Size,
    /// A fresh record in place of these bytes.
    Fresh(Vec<u8>),
}

/// The kind bytes of frames, and of the replies to them.
pub const STEP: u8 = b's';
pub const GIVE: u8 = b'g';
pub const TAKE: u8 = b't';
pub const SIZE: u8 = b'z';
pub const FRESH: u8 = b'f';

/// The longest tape that a frame may lend; the board must refuse those above 16,777,216.
pub const LONGEST_LENT: u32 = 16_777_216 + 2048;
/// The longest record buffer that a frame may hand over, and the most bytes to give or to take.
pub const LONGEST_BUFFER: usize = 65_536;

impl Lent {
    /// A tape of zeros.
    pub fn blank(length: usize) -> Lent {
        Lent { length: length as u32, at: 0, given: Vec::new() }
    }

    /// Makes the buffer this tape.
    pub fn fill(&self, tape: &mut Vec<u8>) {
        tape.clear();
        tape.resize(self.length as usize, 0);
        tape[self.range()].copy_from_slice(&self.given);
    }

    /// Where the bytes given stand.
    pub fn range(&self) -> Range<usize> {
        self.at as usize..self.at as usize + self.given.len()
    }
}

impl Asked {
    /// The bytes of a call with many.
    pub fn many(&mut self) -> Option<&mut Vec<u8>> {
        match self {
            Asked::Event(_) => None,
            Asked::Give(bytes) | Asked::Take(bytes) => Some(bytes),
        }
    }

    /// The kind byte of a frame that asks for this, and of the reply to it.
    pub fn kind(&self) -> u8 {
        match self {
            Asked::Event(_) => STEP,
            Asked::Give(_) => GIVE,
            Asked::Take(_) => TAKE,
        }
    }
}

impl Step {
    fn write(&self, bytes: &mut Vec<u8>) {
        bytes.push(self.asked.kind());
        put(bytes, &self.record);
        for tape in &self.tapes {
            bytes.extend(tape.length.to_le_bytes());
            bytes.extend(tape.at.to_le_bytes());
            put(bytes, &tape.given);
        }
        match &self.asked {
            Asked::Event(event) => {
                bytes.push(event.len() as u8);
                bytes.extend(event);
            }
            Asked::Give(buffer) | Asked::Take(buffer) => put(bytes, buffer),
        }
    }

    /// The rest of a frame of this kind.
    fn read(kind: u8, bytes: &mut &[u8]) -> Result<Step, String> {
        let record = buffer(bytes, "a record")?;
        let tapes = [lent(bytes)?, lent(bytes)?, lent(bytes)?, lent(bytes)?];
        let asked = match kind {
            GIVE => Asked::Give(buffer(bytes, "a call")?),
            TAKE => Asked::Take(buffer(bytes, "a call")?),
            _ => {
                let length = take(bytes, 1)?[0] as usize;
                Asked::Event(take(bytes, length)?.to_vec())
            }
        };
        Ok(Step { record, tapes, asked })
    }
}

impl Frame {
    pub fn write(&self, bytes: &mut Vec<u8>) {
        match self {
            Frame::Size => bytes.push(SIZE),
            Frame::Fresh(record) => {
                bytes.push(FRESH);
                put(bytes, record);
            }
            Frame::Step(step) => step.write(bytes),
        }
    }

    /// The next frame of many, or nothing at their end.
    pub fn read(bytes: &mut &[u8]) -> Result<Option<Frame>, String> {
        let Some((&kind, rest)) = bytes.split_first() else {
            return Ok(None);
        };
        *bytes = rest;
        Ok(Some(match kind {
            SIZE => Frame::Size,
            FRESH => Frame::Fresh(buffer(bytes, "a record")?),
            STEP | GIVE | TAKE => Frame::Step(Step::read(kind, bytes)?),
            _ => return Err(format!("no frame begins with {kind:02X}")),
        }))
    }
}

/// Puts bytes after their number.
pub fn put(into: &mut Vec<u8>, bytes: &[u8]) {
    into.extend((bytes.len() as u32).to_le_bytes());
    into.extend(bytes);
}

/// The next bytes, so many of them.
pub fn take<'a>(bytes: &mut &'a [u8], count: usize) -> Result<&'a [u8], String> {
    let (taken, rest) = bytes.split_at_checked(count).ok_or("cut off")?;
    *bytes = rest;
    Ok(taken)
}

/// A number of four bytes.
pub fn number(bytes: &mut &[u8]) -> Result<u32, String> {
    let taken = take(bytes, 4)?;
    Ok(u32::from_le_bytes(taken.try_into().expect("four bytes were taken")))
}

/// A buffer after its length, which is bounded.
fn buffer(bytes: &mut &[u8], what: &str) -> Result<Vec<u8>, String> {
    let length = number(bytes)? as usize;
    if length > LONGEST_BUFFER {
        return Err(format!("{what} of {length} bytes"));
    }
    Ok(take(bytes, length)?.to_vec())
}

fn lent(bytes: &mut &[u8]) -> Result<Lent, String> {
    let (length, at, given) = (number(bytes)?, number(bytes)?, number(bytes)?);
    if length > LONGEST_LENT || at > length || given > length - at {
        return Err(format!("a tape of {length} bytes with {given} given from {at}"));
    }
    Ok(Lent { length, at, given: take(bytes, given as usize)?.to_vec() })
}
