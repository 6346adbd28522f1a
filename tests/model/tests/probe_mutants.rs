//! The comparison of frames has teeth: it finds every board with something broken.

use model::probe::board::{Bench, Board, Model};
use model::probe::frame::{Asked, Frame};
use model::probe::generate::{cases, Case, FRAMES};
use model::probe::mutants;
use model::probe::reply::Reply;
use std::collections::HashSet;

/// The mutants that no frame showed so far, each at its bench.
struct Alive(Vec<(usize, Bench)>);

impl Alive {
    fn of(boards: impl Iterator<Item = (usize, Box<dyn Board>)>) -> Alive {
        Alive(boards.map(|(number, board)| (number, Bench::new(board))).collect())
    }

    fn numbers(&self) -> HashSet<usize> {
        self.0.iter().map(|(number, _)| *number).collect()
    }

    /// Shows them such frames of these cases until there are none left.
    fn show_all<'a>(&mut self, cases: impl Iterator<Item = &'a Case>, such: fn(&Frame) -> bool) {
        let mut model = Bench::new(Box::new(Model));
        let mut shown = 0;
        for case in cases {
            if self.0.is_empty() {
                break;
            }
            let mut with_reply = |frame: Frame| {
                let reply = model.reply(&frame);
                (frame, reply)
            };
            let frames = case.frames(1).into_iter().filter(such);
            let frames: Vec<_> = frames.map(&mut with_reply).collect();
            shown += frames.len();
            self.show(&format!("{:?} case {}", case.generator.name, case.number), &frames);
        }
        println!("{shown} frames shown");
    }

    /// Shows all of them the frames of a case, and drops those that reply in another way.
    fn show(&mut self, case: &str, frames: &[(Frame, Reply)]) {
        self.0.retain_mut(|(number, bench)| {
            let differs = |(frame, reply): &(Frame, Reply)| bench.reply(frame) != *reply;
            let found = frames.iter().position(differs);
            if let Some(at) = found {
                println!("mutant {number}, {}: {case}, frame {at}", mutants::name(*number));
            }
            found.is_none()
        });
    }

    fn names(&self) -> Vec<&'static str> {
        self.0.iter().map(|(number, _)| mutants::name(*number)).collect()
    }
}

/// The first cases of all generators, then the second ones.
fn in_turn() -> Vec<Case> {
    let mut cases = cases(FRAMES);
    cases.sort_by_key(|case| case.number);
    cases
}

/// Shows the mutants that break calls with many bytes, or the others, such frames.
fn all_are_found(many: bool, such: fn(&Frame) -> bool) {
    let numbers = mutants::numbers().filter(|&number| mutants::breaks_many(number) == many);
    let mut alive = Alive::of(numbers.map(|number| (number, mutants::board(number))));
    println!("{} mutants", alive.0.len());
    alive.show_all(in_turn().iter(), such);
    assert!(alive.0.is_empty(), "{:#?}", alive.names());
}

#[test]
fn every_mutant_is_found() {
    all_are_found(false, |frame| !with_many(frame));
}

#[test]
fn every_mutant_of_calls_with_many_bytes_is_found() {
    all_are_found(true, with_many);
}

/// A frame with one byte given or taken by an event.
fn with_one(frame: &Frame) -> bool {
    let Frame::Step(step) = frame else { return false };
    matches!(&step.asked, Asked::Event(event) if matches!(event[..], [0x02, _] | [0x03]))
}

fn with_many(frame: &Frame) -> bool {
    let Frame::Step(step) = frame else { return false };
    !matches!(step.asked, Asked::Event(_))
}

#[test]
fn what_one_byte_shows_is_found_in_calls_with_many_too() {
    let cases = in_turn();
    let mut by_one = Alive::of(mutants::by_many());
    by_one.show_all(cases.iter().filter(|case| case.number == 0), with_one);
    let never = by_one.numbers();
    let shown = mutants::by_many().filter(|(number, _)| !never.contains(number));
    let mut alive = Alive::of(shown);
    println!("{} mutants", alive.0.len());
    assert!(alive.0.len() > 90);
    alive.show_all(cases.iter(), with_many);
    assert!(alive.0.is_empty(), "{:#?}", alive.names());
}

#[test]
fn the_model_is_no_mutant_of_itself() {
    let (mut one, mut other) = (Bench::new(mutants::board(0)), Bench::new(Box::new(Model)));
    for case in cases(0).iter().filter(|case| case.number == 0) {
        for frame in case.frames(2) {
            assert!(one.reply(&frame) == other.reply(&frame));
        }
    }
}
