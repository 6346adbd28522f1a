//! Runs a program on many traces and compares each line it prints with the model's.

use model::compare::program::{Feed, Process, Program};
use model::compare::random::new_seed;
use model::compare::runner::{self, Plan};
use model::compare::{report, suites};
use std::path::PathBuf;
use std::process::ExitCode;
use std::time::{Duration, Instant};

const USAGE: &str = "usage: compare [OPTIONS] [-- PROGRAM ARGUMENT...]
  compares PROGRAM with the model; without one, the words of $REPLAY_PROGRAM;
  without that, `./run replay` of the repository
  --seed N      makes the same traces again (a new seed each time otherwise)
  --events N    random events at least (3000000)
  --suite NAME  this suite alone
  --jobs N      programs at a time (2)
  --keep DIR    folder for traces that differ (failures, beside the model)
  --first       stops at the first difference
  --self        the model's own replay is the program
  --mutant K    the same with one rule broken on purpose
  --suites      lists the suites";

/// The command line, understood.
struct Options {
    seed: u64,
    events: usize,
    jobs: usize,
    suite: Option<String>,
    keep: PathBuf,
    most_failures: usize,
    program: Vec<String>,
    list: bool,
}

fn main() -> ExitCode {
    if std::env::args().skip(1).any(|word| word == "--help") {
        println!("{USAGE}");
        return ExitCode::SUCCESS;
    }
    match options(std::env::args().skip(1)) {
        Ok(options) if options.list => {
            list();
            ExitCode::SUCCESS
        }
        Ok(options) => compare(&options),
        Err(wrong) => {
            eprintln!("{wrong}\n{USAGE}");
            ExitCode::from(2)
        }
    }
}

/// Reads the command line.
fn options(mut words: impl Iterator<Item = String>) -> Result<Options, String> {
    let mut options = Options {
        seed: new_seed(),
        events: 3_000_000,
        jobs: 2,
        suite: None,
        keep: package().join("failures"),
        most_failures: 20,
        program: default_program(),
        list: false,
    };
    while let Some(word) = words.next() {
        let mut value = || words.next().ok_or(format!("{word} wants a value"));
        match word.as_str() {
            "--seed" => options.seed = number(&value()?)?,
            "--events" => options.events = number(&value()?)? as usize,
            "--jobs" => options.jobs = number(&value()?)? as usize,
            "--suite" => options.suite = Some(value()?),
            "--keep" => options.keep = value()?.into(),
            "--first" => options.most_failures = 1,
            "--self" => options.program = vec![own_replay()?],
            "--mutant" => options.program = vec![own_replay()?, "--mutant".into(), value()?],
            "--suites" => options.list = true,
            "--" => options.program = words.by_ref().collect(),
            _ => return Err(format!("no such option: {word}")),
        }
    }
    if options.program.is_empty() {
        return Err("no program to compare".into());
    }
    Ok(options)
}

fn number(word: &str) -> Result<u64, String> {
    word.parse().map_err(|_| format!("not a number: {word}"))
}

/// The folder of this package, as it was when it was built.
fn package() -> PathBuf {
    env!("CARGO_MANIFEST_DIR").into()
}

/// What is compared if nothing is said.
fn default_program() -> Vec<String> {
    match std::env::var("REPLAY_PROGRAM") {
        Ok(words) => words.split_whitespace().map(String::from).collect(),
        Err(_) => {
            let root = package().join("../..");
            let root = root.canonicalize().unwrap_or(root);
            vec![root.join("run").to_string_lossy().into_owned(), "replay".into()]
        }
    }
}

/// The model's replay, which is built into the same folder.
fn own_replay() -> Result<String, String> {
    let own = std::env::current_exe().map_err(|error| error.to_string())?;
    Ok(own.with_file_name("model-replay").to_string_lossy().into_owned())
}

fn list() {
    let mut last = "";
    for case in suites::all(0, 0) {
        if case.suite != last {
            println!("{}", case.suite);
        }
        last = case.suite;
    }
    println!("examples");
}

/// The whole comparison; the last line counts the cases.
fn compare(options: &Options) -> ExitCode {
    let mut cases = suites::all(options.seed, options.events);
    cases.extend(suites::examples(&package().join("../../examples")));
    cases.retain(|case| options.suite.as_ref().is_none_or(|suite| suite == case.suite));
    let program = Process::replay(options.program.clone(), Duration::from_secs(60));
    println!("comparing {:?}, seed {}", options.program.join(" "), options.seed);
    if cases.is_empty() || !starts(&program) {
        println!("0 passed, 1 failed");
        return ExitCode::FAILURE;
    }
    let started = Instant::now();
    let plan = Plan {
        cases: &cases,
        program: &program,
        jobs: options.jobs,
        most_failures: options.most_failures,
        patience: Duration::from_secs(60),
        progress: true,
    };
    let tallies = runner::run(&plan, &|failure| {
        print!("{}", report::failure(failure, options.seed, &options.keep));
    });
    tallies.iter().for_each(|tally| println!("{}", report::tally(tally)));
    let sum = |count: fn(&runner::Tally) -> usize| tallies.iter().map(count).sum::<usize>();
    let (seconds, events) = (started.elapsed().as_secs_f64(), sum(|tally| tally.events));
    println!("{events} events compared in {seconds:.1} s, seed {}", options.seed);
    let failed = sum(|tally| tally.failed);
    println!("{} passed, {failed} failed", sum(|tally| tally.passed));
    ExitCode::from((failed > 0) as u8)
}

/// One run on nothing, so that a program that is not there is told once and not a thousand times.
fn starts(program: &Process) -> bool {
    let started = Instant::now();
    match program.run(&[], Feed::Whole) {
        Ok(_) => {
            println!("one start takes {:.1} ms", started.elapsed().as_secs_f64() * 1000.0);
            true
        }
        Err(wrong) => {
            println!("the program does not run: {wrong}");
            false
        }
    }
}
