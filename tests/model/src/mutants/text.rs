//! Mutants that spoil the text of `replay`.

use crate::events;
use crate::replay::{replay as true_replay, replay_with};
use crate::{Answer, Outcome};

pub fn cut_off_unanswered(trace: &[u8]) -> Vec<u8> {
    let whole = events::all(trace).filter(|event| event.len() == events::length(event[0]));
    true_replay(&whole.flatten().copied().collect::<Vec<u8>>())
}

pub fn numbers_wrap(trace: &[u8]) -> Vec<u8> {
    let text = String::from_utf8(true_replay(trace)).expect("the text is plain");
    let wrapped = text.split_inclusive('\n').map(|line| match line.split_once(' ') {
        Some((number, rest)) => match number.parse::<u64>() {
            Ok(number) => format!("{} {rest}", number % 65_536),
            Err(_) => line.into(),
        },
        None => line.into(),
    });
    wrapped.collect::<String>().into_bytes()
}

pub fn lower_case(trace: &[u8]) -> Vec<u8> {
    let text = String::from_utf8(true_replay(trace)).expect("the text is plain");
    let lower = text.split_inclusive('\n').map(|line| match line.rsplit_once(' ') {
        Some((head, byte)) => format!("{head} {}", byte.to_ascii_lowercase()),
        None => line.into(),
    });
    lower.collect::<String>().into_bytes()
}

pub fn goes_on(trace: &[u8]) -> Vec<u8> {
    let text = replay_with(trace, |unit, tapes, event| {
        let outcome = unit.step(tapes, event);
        match outcome.answer {
            Answer::Malformed => Outcome { answer: Answer::TapeTooLong, ..outcome },
            _ => outcome,
        }
    });
    String::from_utf8(text).expect("the text is plain").replace(" 6 ", " 4 ").into_bytes()
}
