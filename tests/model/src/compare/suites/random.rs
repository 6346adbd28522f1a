//! Random traces in any number.

use super::Case;
use crate::compare::random::Random;
use crate::compare::{ending, steer};

/// Events of one ordinary trace.
const TRACE: usize = 40_000;

/// A trace from its random numbers and the number of its events.
type Make = fn(&mut Random, usize) -> Vec<u8>;

/// So many cases of so many events; every third one ends in bytes that are no event.
fn cases(seed: u64, suite: &'static str, count: usize, events: usize, make: Make) -> Vec<Case> {
    let case = |number: usize| {
        Case::new(suite, format!("trace {number}"), move || {
            let mut random = Random::for_case(seed, suite, number);
            let mut trace = make(&mut random, events);
            if number % 3 == 2 {
                trace.extend(steer::malformed(&mut random));
            }
            trace
        })
    };
    (0..count).map(case).collect()
}

/// Traces that follow the unit's state.
pub fn steered(seed: u64, events: usize) -> Vec<Case> {
    cases(seed, "steered", events.div_ceil(TRACE), TRACE, steer::steered)
}

/// Traces that followed it before some events were lost or changed.
pub fn disturbed(seed: u64, events: usize) -> Vec<Case> {
    cases(seed, "disturbed", events.div_ceil(TRACE), TRACE, steer::disturbed)
}

/// Traces that pay no heed to it.
pub fn heedless(seed: u64, events: usize) -> Vec<Case> {
    cases(seed, "heedless", events.div_ceil(TRACE), TRACE, steer::heedless)
}

/// Traces that stay near the end of a tape.
pub fn at_the_end(seed: u64, events: usize) -> Vec<Case> {
    cases(seed, "at the end", events.div_ceil(TRACE), TRACE, ending::at_the_end)
}

/// Two steered traces of great length, so that the numbers grow long too.
pub fn long(seed: u64, events: usize) -> Vec<Case> {
    cases(seed, "long", 2, events.div_ceil(2), steer::steered)
}
