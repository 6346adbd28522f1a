//! Replies: what came out of a board, as bytes. `tests/probe/README.md` has the layout.

use crate::probe::frame::{number, put, take, FRESH, GIVE, SIZE, STEP, TAKE};
use crate::Outcome;

/// A tape without the zeros at both ends.
#[derive(Clone, PartialEq, Eq, Debug, Default)]
pub struct Trimmed {
    pub first: u32,
    pub bytes: Vec<u8>,
}

/// What a call returned, and what it wrote beside its result.
#[derive(Clone, PartialEq, Eq, Debug)]
pub enum Came {
    /// An event returns nothing.
    Event,
    /// How many bytes were given.
    Give(u64),
    /// How many bytes were taken, and the whole buffer after.
    Take(u64, Vec<u8>),
}

/// What a call left.
#[derive(Clone, PartialEq, Eq, Debug)]
pub struct Stepped {
    /// Answer, byte given, byte, READY, EXCEPTION, DIRECTION.
    pub result: [u8; 6],
    /// What the call for the lines returned of the record after, and the three lines.
    pub lines: [u8; 4],
    pub record: Vec<u8>,
    pub tapes: [Trimmed; 4],
    pub came: Came,
}

/// What came out.
#[derive(Clone, PartialEq, Eq, Debug)]
pub enum Reply {
    Step(Stepped),
    Size(u64),
    /// What was returned, and the buffer after.
    Fresh(u8, Vec<u8>),
}

/// An outcome as a board lays it out.
pub fn result(outcome: &Outcome) -> [u8; 6] {
    let lines = outcome.lines;
    [
        outcome.answer as u8,
        outcome.byte.is_some() as u8,
        outcome.byte.unwrap_or(0),
        lines.ready as u8,
        lines.exception as u8,
        lines.direction as u8,
    ]
}

impl Trimmed {
    /// A tape of 16 million zeros is passed in pieces, each by one sum.
    pub fn of(tape: &[u8]) -> Trimmed {
        const PIECE: usize = 1024;
        let zeros = |piece: &[u8]| piece.iter().fold(0, |sum, byte| sum | byte) == 0;
        let ahead = tape.chunks(PIECE).take_while(|piece| zeros(piece)).count();
        let rest = &tape[tape.len().min(ahead * PIECE)..];
        let Some(first) = rest.iter().position(|&byte| byte != 0) else {
            return Trimmed::default();
        };
        let rest = &rest[first..];
        let behind = rest.rchunks(PIECE).take_while(|piece| zeros(piece)).count();
        let rest = &rest[..rest.len() - behind * PIECE];
        let last = rest.iter().rposition(|&byte| byte != 0).expect("the first is not 0");
        Trimmed { first: (ahead * PIECE + first) as u32, bytes: rest[..=last].to_vec() }
    }

    /// The byte of the tape at a place.
    pub fn at(&self, place: usize) -> u8 {
        let within = place.checked_sub(self.first as usize);
        within.and_then(|place| self.bytes.get(place)).copied().unwrap_or(0)
    }
}

impl Stepped {
    fn write(&self, into: &mut Vec<u8>) {
        into.push(match self.came {
            Came::Event => STEP,
            Came::Give(_) => GIVE,
            Came::Take(..) => TAKE,
        });
        into.extend(self.result);
        into.extend(self.lines);
        put(into, &self.record);
        for tape in &self.tapes {
            into.extend(tape.first.to_le_bytes());
            put(into, &tape.bytes);
        }
        match &self.came {
            Came::Event => {}
            Came::Give(count) => into.extend(count.to_le_bytes()),
            Came::Take(count, buffer) => {
                into.extend(count.to_le_bytes());
                put(into, buffer);
            }
        }
    }

    /// The rest of a reply of this kind.
    fn read(kind: u8, from: &mut &[u8]) -> Result<Stepped, String> {
        Ok(Stepped {
            result: array(from)?,
            lines: array(from)?,
            record: counted(from)?,
            tapes: [trimmed(from)?, trimmed(from)?, trimmed(from)?, trimmed(from)?],
            came: match kind {
                GIVE => Came::Give(u64::from_le_bytes(array(from)?)),
                TAKE => Came::Take(u64::from_le_bytes(array(from)?), counted(from)?),
                _ => Came::Event,
            },
        })
    }
}

impl Reply {
    /// The reply after its length.
    pub fn write(&self, into: &mut Vec<u8>) {
        let start = into.len();
        into.extend([0; 4]);
        match self {
            Reply::Size(size) => {
                into.push(SIZE);
                into.extend(size.to_le_bytes());
            }
            Reply::Fresh(returned, record) => {
                into.extend([FRESH, *returned]);
                put(into, record);
            }
            Reply::Step(stepped) => stepped.write(into),
        }
        let length = (into.len() - start - 4) as u32;
        into[start..start + 4].copy_from_slice(&length.to_le_bytes());
    }

    /// The reply that these bytes are, its length before them taken off.
    pub fn read(mut bytes: &[u8]) -> Result<Reply, String> {
        let from = &mut bytes;
        let reply = match take(from, 1)?[0] {
            SIZE => Reply::Size(u64::from_le_bytes(array(from)?)),
            FRESH => Reply::Fresh(take(from, 1)?[0], counted(from)?),
            kind @ (STEP | GIVE | TAKE) => Reply::Step(Stepped::read(kind, from)?),
            kind => return Err(format!("no reply begins with {kind:02X}")),
        };
        match bytes.len() {
            0 => Ok(reply),
            more => Err(format!("a reply with {more} bytes too many")),
        }
    }
}

/// The bytes of the next reply of many, without the length before them.
pub fn next<'a>(replies: &mut &'a [u8]) -> Result<&'a [u8], String> {
    let length = number(replies)? as usize;
    take(replies, length)
}

fn array<const N: usize>(from: &mut &[u8]) -> Result<[u8; N], String> {
    Ok(take(from, N)?.try_into().expect("so many were taken"))
}

fn counted(from: &mut &[u8]) -> Result<Vec<u8>, String> {
    let length = number(from)? as usize;
    Ok(take(from, length)?.to_vec())
}

fn trimmed(from: &mut &[u8]) -> Result<Trimmed, String> {
    Ok(Trimmed { first: number(from)?, bytes: counted(from)? })
}
