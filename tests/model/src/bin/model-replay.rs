//! The model's own `replay`: raw events on standard input, text on standard output.

use model::{mutants, replay};
use std::io::{self, Read, Write};
use std::process::ExitCode;

const USAGE: &str = "usage: model-replay [--mutant K]
  raw events on standard input, one line per event on standard output
  --mutant K   breaks one rule on purpose, to try the comparison
  --mutants    lists what each mutant breaks";

fn main() -> ExitCode {
    let words: Vec<String> = std::env::args().skip(1).collect();
    let words: Vec<&str> = words.iter().map(String::as_str).collect();
    match words.as_slice() {
        [] => convert(replay),
        ["--mutants"] => {
            (1..=mutants::COUNT).for_each(|number| println!("{number} {}", mutants::name(number)));
            ExitCode::SUCCESS
        }
        ["--mutant", number] => match number.parse() {
            Ok(number) if (1..=mutants::COUNT).contains(&number) => {
                convert(|trace| mutants::replay(number, trace))
            }
            _ => {
                eprintln!("a mutant is 1 to {}, not {number}", mutants::COUNT);
                ExitCode::from(2)
            }
        },
        _ => {
            eprintln!("{USAGE}");
            ExitCode::from(2)
        }
    }
}

/// Standard input through a function to standard output.
fn convert(text: impl Fn(&[u8]) -> Vec<u8>) -> ExitCode {
    let mut trace = Vec::new();
    let done = io::stdin()
        .read_to_end(&mut trace)
        .and_then(|_| io::stdout().lock().write_all(&text(&trace)));
    match done {
        Ok(()) => ExitCode::SUCCESS,
        Err(error) => {
            eprintln!("model-replay: {error}");
            ExitCode::FAILURE
        }
    }
}
