//! Generators of frames: lists that are gone through whole, each item with random surroundings.

mod bytes;
mod changed;
mod events;
mod faults;
mod heads;
mod late;
mod longest;
mod many;
pub mod parts;
mod phases;
mod possible;

use crate::compare::random::Random;
use crate::probe::frame::Frame;

/// A place in a list of all combinations: each choice takes one digit off it.
pub struct Index {
    left: usize,
    /// How many combinations the choices so far have.
    product: usize,
}

impl Index {
    fn new(left: usize) -> Index {
        Index { left, product: 1 }
    }

    /// A number below this one.
    pub fn below(&mut self, count: usize) -> usize {
        let digit = self.left % count;
        self.left /= count;
        self.product *= count;
        digit
    }

    /// One of these.
    pub fn of<T: Clone>(&mut self, choices: &[T]) -> T {
        choices[self.below(choices.len())].clone()
    }
}

/// Frames that a comparison has where nothing is said.
pub const FRAMES: usize = 2_350_000;

type Make = fn(&mut Random, &mut Index, &mut Vec<Frame>);

/// A generator, and how often it goes through its list.
pub struct Generator {
    pub name: &'static str,
    rounds: usize,
    /// Items of the list in one case.
    share: usize,
    make: Make,
}

const fn generator(name: &'static str, rounds: usize, make: Make) -> Generator {
    Generator { name, rounds, share: 4000, make }
}

/// All generators; the last one fills up to the number asked for.
static GENERATORS: [Generator; 35] = [
    generator("every event in every situation", 4, possible::situations),
    generator("one fault in a record", 12, faults::one),
    generator("several faults in a record", 60_000, faults::several),
    generator("heads at, near and above the end", 4, heads::near_the_end),
    generator("every length of tape", 3, heads::lengths),
    generator("places in a block", 5, phases::places),
    generator("octets outstanding", 10, phases::outstanding),
    generator("every kind byte at the head", 4, heads::kinds),
    generator("every kind byte after a block", 8, heads::kinds_after),
    generator("records one after another", 3000, heads::chains),
    Generator { share: 400, ..generator("tapes changed between events", 20_000, changed::runs) },
    generator("every number of late blocks", 4, late::values),
    generator("late blocks and their room", 3, late::rooms),
    Generator { share: 400, ..generator("late WRITEs one after another", 2500, late::writes) },
    generator("events of 0 to 4 bytes", 8, events::short),
    generator("every event of 2 bytes", 1, events::pairs),
    generator("events of any length", 1, events::long),
    generator("no record: each way", 2, bytes::each_flaw),
    generator("no record: several ways", 20_000, bytes::several_flaws),
    generator("random bytes in a valid skeleton", 300_000, bytes::skeleton),
    generator("size and fresh", 1, bytes::fresh),
    Generator { share: 60, ..generator("order of refusals", 1, longest::refusals) },
    Generator { share: 60, ..generator("tapes of 16,777,216", 1, longest::exactly) },
    Generator { share: 30, ..generator("tapes too long", 1, longest::beyond) },
    generator("many bytes in other surroundings", 300, many::elsewhere),
    generator("many bytes from every place in a block", 5, many::places),
    generator("many bytes from a report on", 5, many::reports),
    generator("many bytes given and their room", 5, many::given),
    generator("many bytes taken and what follows", 4, many::taken),
    generator("every number of bytes", 1, many::lengths),
    generator("calls without a byte", 8, many::nothing),
    Generator { share: 500, ..generator("many bytes and orders between them", 1500, many::runs) },
    Generator { share: 60, ..generator("many bytes on the longest tapes", 1, longest::many) },
    generator("as many bytes as there may be", 1, many::most),
    generator("anything", 0, possible::anything),
];

/// The frames of one generator that are compared together.
pub struct Case {
    pub generator: &'static Generator,
    pub number: usize,
    items: std::ops::Range<usize>,
}

/// Large and without a divisor of any list's length, so that neighbours are unlike each other.
const STRIDE: usize = 7_368_787;

impl Generator {
    /// How many items the list has.
    fn round(&self) -> usize {
        let mut index = Index::new(0);
        (self.make)(&mut Random::new(0), &mut index, &mut Vec::new());
        index.product
    }

    /// The list so many times, in cases of their share.
    fn cases(&'static self, items: usize) -> impl Iterator<Item = Case> {
        (0..items.div_ceil(self.share)).map(move |number| {
            let from = number * self.share;
            Case { generator: self, number, items: from..items.min(from + self.share) }
        })
    }

    /// How many frames come of one item.
    fn frames_of_one(&self) -> usize {
        let mut frames = Vec::new();
        (self.make)(&mut Random::new(0), &mut Index::new(0), &mut frames);
        frames.len()
    }
}

impl Case {
    /// The same frames each time for one seed.
    pub fn frames(&self, seed: u64) -> Vec<Frame> {
        let mut random = Random::for_case(seed, self.generator.name, self.number);
        let round = self.generator.round();
        let mut frames = Vec::new();
        for item in self.items.clone() {
            let mut index = Index::new(item % round * STRIDE % round);
            (self.generator.make)(&mut random, &mut index, &mut frames);
        }
        frames
    }
}

/// All cases, of so many frames at the least.
pub fn cases(frames: usize) -> Vec<Case> {
    let mut cases = Vec::new();
    let mut made = 0;
    for generator in &GENERATORS {
        let items = match generator.rounds {
            0 => frames.saturating_sub(made),
            rounds => rounds * generator.round(),
        };
        made += items * generator.frames_of_one();
        cases.extend(generator.cases(items));
    }
    cases
}

/// The names of the generators in their order.
pub fn names() -> impl Iterator<Item = &'static str> {
    GENERATORS.iter().map(|generator| generator.name)
}

#[cfg(test)]
mod tests {
    use super::*;
    use std::collections::HashSet;

    #[test]
    fn the_choices_of_a_list_do_not_depend_on_each_other() {
        for generator in &GENERATORS {
            let round = generator.round();
            for item in (0..round).step_by(1 + round / 50) {
                let mut index = Index::new(item);
                (generator.make)(&mut Random::new(9), &mut index, &mut Vec::new());
                assert_eq!((index.product, index.left), (round, 0), "{}", generator.name);
            }
        }
    }

    #[test]
    fn the_stride_comes_to_every_item_of_a_list() {
        for round in GENERATORS.iter().map(Generator::round) {
            let items: HashSet<usize> = (0..round).map(|item| item * STRIDE % round).collect();
            assert_eq!(items.len(), round);
        }
    }
}
