//! Events as bytes: what each means, and where one ends in a raw trace.

/// A well-formed event; drives are 0 to 3.
#[derive(Clone, Copy, PartialEq, Eq, Debug)]
pub enum Event {
    Command(u8),
    Give(u8),
    Take,
    OnlineRaised,
    OnlineDropped,
    Reset,
    CartridgeIn { drive: usize, protected: bool },
    CartridgeOut(usize),
    Error(usize),
    Underrun(usize),
}

impl Event {
    /// The event these bytes are, or nothing if kind, length or drive is wrong.
    pub fn of(bytes: &[u8]) -> Option<Event> {
        let (&kind, body) = bytes.split_first()?;
        match (kind, body) {
            (0x01, &[octet]) => Some(Event::Command(octet)),
            (0x02, &[byte]) => Some(Event::Give(byte)),
            (0x03, []) => Some(Event::Take),
            (0x04, []) => Some(Event::OnlineRaised),
            (0x05, []) => Some(Event::OnlineDropped),
            (0x06, []) => Some(Event::Reset),
            (0x07, &[body]) => drive(body & 0x7F)
                .map(|drive| Event::CartridgeIn { drive, protected: body & 0x80 != 0 }),
            (0x08, &[body]) => drive(body).map(Event::CartridgeOut),
            (0x09, &[body]) => drive(body).map(Event::Error),
            (0x0A, &[body]) => drive(body).map(Event::Underrun),
            _ => None,
        }
    }
}

/// The drive that a body names.
fn drive(body: u8) -> Option<usize> {
    (body < 4).then_some(body as usize)
}

/// How many bytes an event of this kind has; a kind that is unknown is one byte by itself.
pub fn length(kind: u8) -> usize {
    match kind {
        0x01 | 0x02 | 0x07..=0x0A => 2,
        _ => 1,
    }
}

/// Splits the next event off a raw trace; the last one may be cut off.
pub fn cut(trace: &[u8]) -> Option<(&[u8], &[u8])> {
    let kind = *trace.first()?;
    Some(trace.split_at(length(kind).min(trace.len())))
}

/// All events of a raw trace in order, those that are no event among them.
pub fn all(mut trace: &[u8]) -> impl Iterator<Item = &[u8]> {
    std::iter::from_fn(move || {
        let (event, rest) = cut(trace)?;
        trace = rest;
        Some(event)
    })
}
