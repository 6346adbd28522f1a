//! Frames and replies as bytes, and the frames that generators make.

use model::probe::board::{Bench, Model};
use model::probe::frame::{Asked, Frame, Lent, Step};
use model::probe::generate::{cases, Case, FRAMES};
use model::probe::reply::{next, Reply, Trimmed};
use std::collections::HashSet;

/// The first case of each generator.
fn firsts() -> impl Iterator<Item = Case> {
    cases(FRAMES).into_iter().filter(|case| case.number == 0)
}

#[test]
fn frames_and_replies_go_there_and_back() {
    let mut bench = Bench::new(Box::new(Model));
    for frame in firsts().flat_map(|case| case.frames(3).into_iter().step_by(20)) {
        let mut bytes = Vec::new();
        frame.write(&mut bytes);
        assert!(Frame::read(&mut &bytes[..]) == Ok(Some(frame.clone())));
        let reply = bench.reply(&frame);
        let mut bytes = Vec::new();
        reply.write(&mut bytes);
        let mut left = &bytes[..];
        let own = next(&mut left).expect("a reply has its length");
        assert!(left.is_empty() && Reply::read(own) == Ok(reply));
    }
}

/// A frame with little in it, as bytes.
fn small(asked: Asked) -> Vec<u8> {
    let tapes = std::array::from_fn(|_| Lent { length: 9, at: 2, given: vec![1, 2] });
    let mut bytes = Vec::new();
    Frame::Step(Step { record: vec![7; 3], tapes, asked }).write(&mut bytes);
    bytes
}

/// What is said of these bytes where one of them is another.
fn refusal(mut bytes: Vec<u8>, at: usize, byte: u8) -> String {
    bytes[at] = byte;
    Frame::read(&mut &bytes[..]).expect_err("it is none")
}

#[test]
fn what_is_no_frame_is_refused() {
    assert_eq!(Frame::read(&mut &[][..]), Ok(None));
    for asked in [Asked::Event(vec![6]), Asked::Give(vec![6; 3]), Asked::Take(vec![6; 3])] {
        let bytes = small(asked);
        for cut in 1..bytes.len() {
            assert_eq!(Frame::read(&mut &bytes[..cut]), Err("cut off".into()));
        }
        let with = |at: usize, byte: u8| refusal(bytes.clone(), at, byte);
        assert_eq!(with(0, b'x'), "no frame begins with 78");
        assert_eq!(with(3, 9), "a record of 589827 bytes");
        assert_eq!(with(8, 3), "a tape of 3 bytes with 2 given from 2");
        assert_eq!(with(11, 2), "a tape of 33554441 bytes with 2 given from 2");
    }
    for asked in [Asked::Give(vec![6; 3]), Asked::Take(vec![6; 3])] {
        let bytes = small(asked);
        let third = bytes.len() - 5;
        assert_eq!(refusal(bytes, third, 1), "a call of 65539 bytes");
    }
}

#[test]
fn a_tape_is_trimmed_at_both_ends() {
    let trimmed = |length: usize, places: &[usize]| {
        let mut tape = vec![0; length];
        places.iter().for_each(|&place| tape[place] = 5);
        let trimmed = Trimmed::of(&tape);
        assert!((0..length).all(|place| trimmed.at(place) == tape[place]));
        (trimmed.first as usize, trimmed.bytes.len())
    };
    for length in [0, 1, 7, 1023, 1024, 1025, 5000] {
        assert_eq!(trimmed(length, &[]), (0, 0));
        for place in (0..length).step_by(7) {
            assert_eq!(trimmed(length, &[place]), (place, 1));
            assert_eq!(trimmed(length, &[place, length - 1]), (place, length - place));
            assert_eq!(trimmed(length, &[0, place]), (0, place + 1));
        }
    }
}

#[test]
fn a_seed_makes_the_same_frames_again() {
    for case in firsts().filter(|case| !case.generator.name.starts_with("size")) {
        assert!(case.frames(1) == case.frames(1));
        assert!(case.frames(1) != case.frames(2));
    }
}

#[test]
fn frames_differ_from_each_other() {
    for case in firsts().filter(|case| !case.generator.name.starts_with("size")) {
        let frames = case.frames(1);
        let written = |frame: &Frame| {
            let mut bytes = Vec::new();
            frame.write(&mut bytes);
            bytes
        };
        let different: HashSet<Vec<u8>> = frames.iter().map(written).collect();
        // In a run the same event may come twice to a record that refuses it.
        let enough = frames.len() - frames.len() / 100;
        assert!(different.len() >= enough, "{}", case.generator.name);
    }
}
