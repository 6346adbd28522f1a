//! The model behind frames: frames on standard input, replies on standard output.

use model::probe::board::Bench;
use model::probe::mutants;
use std::io::{self, Read, Write};
use std::process::ExitCode;

const USAGE: &str = "usage: model-probe [--mutant K]
  frames on standard input, one reply for each on standard output
  --mutant K   breaks one thing on purpose, to try the comparison
  --mutants    lists what each mutant breaks";

fn main() -> ExitCode {
    let words: Vec<String> = std::env::args().skip(1).collect();
    let words: Vec<&str> = words.iter().map(String::as_str).collect();
    match words[..] {
        [] => answer(0),
        ["--mutants"] => {
            mutants::numbers().for_each(|number| println!("{number} {}", mutants::name(number)));
            ExitCode::SUCCESS
        }
        ["--mutant", word] => {
            let mut numbers = mutants::numbers();
            match numbers.find(|number| number.to_string() == word) {
                Some(number) => answer(number),
                None => wrong(&format!("--mutants lists the mutants; {word} is none")),
            }
        }
        _ => wrong(USAGE),
    }
}

/// Answers all frames as this mutant, 0 being none.
fn answer(mutant: usize) -> ExitCode {
    let mut frames = Vec::new();
    let read = io::stdin().read_to_end(&mut frames).map_err(|error| error.to_string());
    let replies = read.and_then(|_| Bench::new(mutants::board(mutant)).replies(&frames));
    match replies.map(|replies| io::stdout().lock().write_all(&replies)) {
        Ok(Ok(())) => ExitCode::SUCCESS,
        Ok(Err(error)) => wrong(&error.to_string()),
        Err(malformed) => wrong(&malformed),
    }
}

fn wrong(why: &str) -> ExitCode {
    eprintln!("model-probe: {why}");
    ExitCode::from(2)
}
