//! The same kind of traces fed in pieces, and of lengths near the sizes that buffers have.

use super::Case;
use crate::compare::program::Feed;
use crate::compare::random::Random;
use crate::compare::steer::steered_part;
use crate::events;

/// Pieces that end anywhere in an event.
pub fn pieces(seed: u64) -> Vec<Case> {
    let case = |feed, events: usize| {
        let number = events + if let Feed::Pieces(size) = feed { size } else { 0 };
        let name = format!("{events} events, {feed:?}");
        let mut case = Case::new("pieces", name, move || {
            steered_part(&mut Random::for_case(seed, "pieces", number), events)
        });
        case.feed = feed;
        case
    };
    let sizes = [1, 2, 3, 7, 511, 4_093, 4_095, 4_097, 8_191, 65_535];
    let mut cases: Vec<Case> = sizes.map(|size| case(Feed::Pieces(size), 20_000)).into();
    cases.extend([200, 300, 400].map(|events| case(Feed::Slowly, events)));
    cases
}

/// Whole and cut-off input whose length is a power of two, one less, or one more.
pub fn lengths(seed: u64) -> Vec<Case> {
    let mut cases = Vec::new();
    for power in 8..=16 {
        for length in [(1usize << power) - 1, 1 << power, (1 << power) + 1] {
            for cut in [false, true] {
                let name = format!("{length} bytes{}", if cut { ", cut off" } else { "" });
                cases.push(Case::new("lengths", name, move || {
                    let mut random = Random::for_case(seed, "lengths", length * 2 + cut as usize);
                    of_length(&mut random, length, cut)
                }));
            }
        }
    }
    cases
}

/// Events of so many bytes in all, with the last one cut off or not.
fn of_length(random: &mut Random, length: usize, cut: bool) -> Vec<u8> {
    let steered = steered_part(random, length);
    let wanted = length - cut as usize;
    let mut trace = Vec::with_capacity(length);
    for event in events::all(&steered) {
        if trace.len() + event.len() > wanted {
            break;
        }
        trace.extend_from_slice(event);
    }
    trace.resize(wanted, 0x03);
    trace.resize(length, 0x01);
    trace
}
