//! The comparer and the programs that it runs, as processes.

use model::compare::program::{Feed, Process, Program};
use std::path::PathBuf;
use std::process::{Command, Output};
use std::time::{Duration, Instant};

/// Runs the comparer with these words; what it keeps goes to a folder of its own.
fn compare(words: &[&str], folder: &str) -> (Output, Vec<String>, PathBuf) {
    let keep = PathBuf::from(env!("CARGO_TARGET_TMPDIR")).join(folder);
    let _ = std::fs::remove_dir_all(&keep);
    let mut command = Command::new(env!("CARGO_BIN_EXE_compare"));
    let output = command.arg("--keep").arg(&keep).args(words).output().expect("it starts");
    let text = String::from_utf8(output.stdout.clone()).expect("it prints text");
    (output, text.lines().map(String::from).collect(), keep)
}

#[test]
fn the_models_own_replay_passes() {
    let (output, lines, keep) = compare(&["--self", "--events", "100000", "--seed", "5"], "self");
    assert!(output.status.success());
    assert!(lines.last().is_some_and(|line| line.ends_with(" passed, 0 failed")));
    assert!(lines[0].ends_with("seed 5") && !keep.exists());
}

#[test]
fn a_broken_replay_is_told_kept_and_shrunk() {
    let words = ["--mutant", "6", "--first", "--jobs", "1", "--seed", "5"];
    let (output, lines, keep) = compare(&words, "mutant");
    assert_eq!(output.status.code(), Some(1));
    assert!(lines.last().is_some_and(|line| line.ends_with(" passed, 1 failed")));
    assert!(lines.iter().any(|line| line.starts_with("DIFFERENCE") && line.ends_with("seed 5")));
    assert!(lines.iter().any(|line| line.starts_with("    program: ")));
    let kept = |end: &str| {
        let mut files = std::fs::read_dir(&keep).expect("the folder is there").flatten();
        let file = files.find(|file| file.path().extension().is_some_and(|found| found == end));
        std::fs::read(file.expect("the file is there").path()).expect("it can be read")
    };
    assert!(!kept("trace").is_empty());
    let listing = String::from_utf8(kept("listing")).expect("a listing is text");
    let trace = model::listing::to_raw(&listing).expect("a listing can be read");
    assert_ne!(model::replay(&trace), model::mutants::replay(6, &trace));
}

#[test]
fn programs_that_are_no_replay_fail_and_nothing_hangs() {
    let missing = compare(&["--", "./no-such-program"], "missing");
    assert_eq!(missing.1.last().map(String::as_str), Some("0 passed, 1 failed"));
    assert!(!missing.0.status.success());
    // One that prints nothing and reads nothing, one that prints its input, one that dies.
    for program in [&["true"][..], &["cat"], &["sh", "-c", "cat > /dev/null; kill -9 $$"]] {
        let words = [&["--suite", "long", "--events", "800000", "--"], program].concat();
        let (output, lines, _) = compare(&words, "others");
        assert_eq!(output.status.code(), Some(1), "{program:?}");
        assert!(lines.last().is_some_and(|line| line.starts_with("0 passed, ")), "{lines:?}");
    }
}

#[test]
fn a_program_that_does_not_end_is_ended() {
    let words = ["sh", "-c", "sleep 1000; true"].map(String::from).to_vec();
    let process = Process::replay(words, Duration::from_millis(300));
    let started = Instant::now();
    let wrong = process.run(&[0x06], Feed::Whole).expect_err("it has no end");
    assert!(wrong.starts_with("no end within"), "{wrong}");
    assert!(started.elapsed() < Duration::from_secs(100));
}

#[test]
fn words_that_are_no_options_are_refused() {
    for words in [&["--sed", "5"][..], &["--seed", "five"], &["--seed"], &["--"]] {
        let output = compare(words, "words").0;
        assert_eq!(output.status.code(), Some(2), "{words:?}");
        assert!(String::from_utf8_lossy(&output.stderr).contains("usage: compare"));
    }
}
