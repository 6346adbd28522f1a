//! Sends frames to a program and compares all that comes out of it with the model.

use model::compare::program::Process;
use model::compare::report::keep_file;
use model::probe::frame::Frame;
use model::probe::generate::{self, Case};
use model::probe::report;
use model::probe::runner::{self, Difference, Failure, Plan, Ran};
use model::probe::tally::Tally;
use std::path::PathBuf;
use std::process::ExitCode;
use std::time::{Duration, Instant};

const USAGE: &str = "usage: probe-compare [OPTIONS] [-- PROGRAM ARG...]
  PROGRAM reads frames and writes replies; without one the model's own is compared
  --seed N       makes these frames (1)
  --frames N     so many at least (2350000)
  --generator G  those of this generator alone, which --generators lists
  --case N       this case of each generator alone
  --jobs N       programs at a time (2)
  --keep DIR     folder for frames that differ (failures, beside the model)
  --first        stops at the first difference
  --mutant K     the model's own program with one thing broken on purpose
  --file FILE    the frames of a file alone";

/// The command line, understood.
struct Options {
    seed: u64,
    frames: usize,
    generator: Option<String>,
    case: Option<usize>,
    jobs: usize,
    keep: PathBuf,
    most_failures: usize,
    file: Option<String>,
    list: bool,
    program: Vec<String>,
}

fn main() -> ExitCode {
    let words: Vec<String> = std::env::args().skip(1).collect();
    if words.first().is_some_and(|word| word == "--help") {
        println!("{USAGE}");
        return ExitCode::SUCCESS;
    }
    match options(words.into_iter()) {
        Ok(options) if options.list => {
            generate::names().for_each(|name| println!("{name}"));
            ExitCode::SUCCESS
        }
        Ok(options) => match &options.file {
            Some(file) => one_file(&options, file),
            None => compare(&options),
        },
        Err(wrong) => {
            eprintln!("{wrong}\n{USAGE}");
            ExitCode::from(2)
        }
    }
}

/// Reads the command line.
fn options(mut words: impl Iterator<Item = String>) -> Result<Options, String> {
    let mut options = Options {
        seed: 1,
        frames: generate::FRAMES,
        generator: None,
        case: None,
        jobs: 2,
        keep: PathBuf::from(env!("CARGO_MANIFEST_DIR")).join("failures"),
        most_failures: 10,
        file: None,
        list: false,
        program: vec![own_probe()?],
    };
    while let Some(word) = words.next() {
        let mut value = || words.next().ok_or(format!("{word} wants a value"));
        let number = |word: String| word.parse::<u64>().map_err(|_| format!("no number: {word}"));
        match word.as_str() {
            "--seed" => options.seed = number(value()?)?,
            "--frames" => options.frames = number(value()?)? as usize,
            "--generator" => options.generator = Some(value()?),
            "--case" => options.case = Some(number(value()?)? as usize),
            "--jobs" => options.jobs = number(value()?)? as usize,
            "--keep" => options.keep = value()?.into(),
            "--first" => options.most_failures = 1,
            "--mutant" => options.program.extend(["--mutant".into(), value()?]),
            "--file" => options.file = Some(value()?),
            "--generators" => options.list = true,
            "--" => options.program = words.by_ref().collect(),
            _ => return Err(format!("no such option: {word}")),
        }
    }
    match options.program.is_empty() {
        true => Err("no program to compare".into()),
        false => Ok(options),
    }
}

/// The model's own program, which is built into the same folder.
fn own_probe() -> Result<String, String> {
    let own = std::env::current_exe().map_err(|error| error.to_string())?;
    Ok(own.with_file_name("model-probe").to_string_lossy().into_owned())
}

fn process(options: &Options) -> Process {
    Process {
        words: options.program.clone(),
        limit: Duration::from_secs(120),
        pace: Duration::from_nanos(2000),
        most_status: 0,
    }
}

/// The whole comparison; the last line counts the cases.
fn compare(options: &Options) -> ExitCode {
    let mut cases = generate::cases(options.frames);
    let all = cases.len();
    cases.retain(|case| options.generator.as_ref().is_none_or(|name| name == case.generator.name));
    cases.retain(|case| options.case.is_none_or(|number| number == case.number));
    println!("comparing {:?}, seed {}", options.program.join(" "), options.seed);
    let program = process(options);
    let Options { seed, jobs, most_failures, .. } = *options;
    let plan = Plan { program: &program, seed, jobs, most_failures };
    let mut tally = Tally::default();
    let (started, mut told) = (Instant::now(), Instant::now());
    runner::run(&plan, &cases, |ran: Ran| {
        let case = &cases[ran.case];
        tally.add(case.generator.name, &ran);
        if let Some(failure) = &ran.failure {
            print!("{}", failed(options, case, failure));
        }
        if told.elapsed() > Duration::from_secs(5) {
            told = Instant::now();
            let (seconds, all) = (started.elapsed().as_secs(), cases.len());
            eprintln!("{seconds} s: {} of {all} cases, {} frames", tally.cases(), tally.frames());
        }
    });
    // A part of the frames need not come to everything.
    let (passed, failed) = tally.print(cases.len() == all);
    let seconds = started.elapsed().as_secs_f64();
    println!("{} frames compared in {seconds:.1} s, seed {seed}", tally.frames());
    println!("{passed} passed, {failed} failed");
    ExitCode::from((failed > 0) as u8)
}

/// A case that differs: how often, the first frames, and where they are kept.
fn failed(options: &Options, case: &Case, failure: &Failure) -> String {
    let (name, number, seed) = (case.generator.name, case.number, options.seed);
    let mut text = format!(
        "DIFFERENCE in generator {name:?}, case {number}, seed {seed}: {} frames differ\n",
        failure.count
    );
    if let Some(shrunk) = &failure.shrunk {
        text += &told(options, case, shrunk, "plainest");
    }
    let hidden = failure.shrunk.is_none();
    for first in failure.first.iter().take(if hidden { 3 } else { 1 }) {
        text += &told(options, case, first, &format!("{}", first.number));
    }
    if hidden {
        text += "  alone the first frame does not differ: what came before it matters\n";
    }
    text
}

/// One frame that differs, kept as a file.
fn told(options: &Options, case: &Case, difference: &Difference, which: &str) -> String {
    let mut bytes = Vec::new();
    difference.frame.write(&mut bytes);
    let name: String = case.generator.name.replace(|c: char| !c.is_ascii_alphanumeric(), "-");
    let name = format!("{name}-{}-seed-{}-{which}.frame", case.number, options.seed);
    let kept = keep_file(&options.keep, &name, &bytes);
    format!(" frame {which}, {kept}\n{}", report::difference(difference))
}

/// The frames of a file, each shown.
fn one_file(options: &Options, file: &str) -> ExitCode {
    let frames = std::fs::read(file).map_err(|error| error.to_string()).and_then(|bytes| {
        let mut left = &bytes[..];
        std::iter::from_fn(|| Frame::read(&mut left).transpose()).collect::<Result<Vec<_>, _>>()
    });
    let frames = match frames {
        Ok(frames) => frames,
        Err(wrong) => {
            eprintln!("probe-compare: {file}: {wrong}");
            return ExitCode::from(2);
        }
    };
    let ran = runner::compare(&process(options), &frames);
    let Some(failure) = ran.failure else {
        frames.iter().for_each(|frame| print!("{}", report::frame(frame)));
        println!("{} passed, 0 failed", frames.len());
        return ExitCode::SUCCESS;
    };
    failure.first.iter().for_each(|first| print!("{}", report::difference(first)));
    println!("{} passed, {} failed", frames.len() - failure.count, failure.count);
    ExitCode::FAILURE
}
