//! The comparison of frames with programs, as processes.

use model::probe::mutants;
use std::fs;
use std::io::Write;
use std::path::PathBuf;
use std::process::{Command, Output, Stdio};

/// Runs the comparer with these words; gives its output, its lines, and where it keeps frames.
fn compare(words: &[&str], folder: &str) -> (Output, Vec<String>, PathBuf) {
    let keep = PathBuf::from(env!("CARGO_TARGET_TMPDIR")).join(folder);
    let _ = fs::remove_dir_all(&keep);
    let comparer = env!("CARGO_BIN_EXE_probe-compare");
    let mut command = Command::new(comparer);
    let output = command.arg("--keep").arg(&keep).args(words).output().expect("it starts");
    let lines = String::from_utf8_lossy(&output.stdout).lines().map(String::from).collect();
    (output, lines, keep)
}

#[test]
fn the_models_own_program_passes() {
    let (output, lines, keep) = compare(&["--case", "0", "--seed", "5"], "probe-self");
    assert!(output.status.success(), "{lines:#?}");
    assert_eq!(lines.last().map(String::as_str), Some("35 passed, 0 failed"));
    assert!(lines[0].ends_with("seed 5") && !keep.exists());
}

#[test]
fn a_broken_board_is_told_kept_and_made_plain() {
    let words = ["--mutant", "6", "--first", "--jobs", "1"];
    let (output, lines, keep) = compare(&words, "probe-mutant");
    assert_eq!(output.status.code(), Some(1));
    assert_eq!(lines.last().map(String::as_str), Some("0 passed, 1 failed"));
    assert!(lines.iter().any(|line| line.starts_with("DIFFERENCE in generator \"every event")));
    assert!(lines.iter().any(|line| line.contains(" CNI: program 00, model 01")), "{lines:#?}");
    assert!(lines.iter().any(|line| line.contains("staging 00 00")), "{lines:#?}");
    let files = fs::read_dir(&keep).expect("the folder is there").flatten();
    let plain = files.map(|file| file.path()).find(|path| path.to_string_lossy().contains("plain"));
    let plain = plain.expect("the plainest frame is kept");
    let plain = plain.to_string_lossy();
    let file = ["--file", &plain];
    assert!(compare(&file, "probe-file").0.status.success());
    let (output, lines, _) = compare(&[&file[..], &["--mutant", "6"]].concat(), "probe-file");
    assert_eq!(output.status.code(), Some(1));
    assert_eq!(lines.last().map(String::as_str), Some("0 passed, 1 failed"));
}

#[test]
fn a_broken_call_with_many_bytes_is_told_and_made_short() {
    let broken = |name: &str| {
        let number = mutants::numbers().find(|&number| mutants::name(number) == name);
        number.expect("there is such a mutant").to_string()
    };
    for (name, told) in [
        ("many: a byte refused is counted", "bytes: program 1 given, model 0 given"),
        ("many: an event without a byte puts 00", "buffer at 0: program 00, model 5A"),
        ("many: goes on after answer 1", "answer: program 02, model 01"),
    ] {
        let number = broken(name);
        let words = ["--mutant", &number, "--first", "--jobs", "1"];
        let many = ["--generator", "many bytes from every place in a block"];
        let (output, lines, _) = compare(&[&words[..], &many].concat(), "probe-many");
        assert_eq!(output.status.code(), Some(1));
        assert!(lines.iter().any(|line| line.contains(told)), "{lines:#?}");
        // The plainest comes first: few bytes, and all alike.
        let asked = lines.iter().find(|line| line.contains(" give ") || line.contains(" take "));
        let asked = asked.expect("the frame is shown");
        assert!(asked.ends_with(": 5A") || asked.ends_with(": 5A 5A"), "{asked}");
    }
}

#[test]
fn programs_that_are_no_board_fail() {
    let few = ["--generator", "size and fresh", "--"];
    for (program, told) in [
        (&["true"][..], "no reply: program cut off"),
        (&["cat"], "no reply: program cut off"),
        (&["./no-such-program"], "cannot start ./no-such-program"),
        (&["sh", "-c", "cat > /dev/null; echo so >&2; exit 3"], "exit status 3 so"),
        (&["sh", "-c", "cat > /dev/null; kill -9 $$"], "ended by signal 9"),
    ] {
        let (output, lines, _) = compare(&[&few, program].concat(), "probe-others");
        assert_eq!(output.status.code(), Some(1), "{program:?}");
        assert_eq!(lines.last().map(String::as_str), Some("0 passed, 1 failed"));
        assert!(lines.iter().any(|line| line.contains(told)), "{lines:#?}");
    }
}

#[test]
fn the_frame_at_which_a_program_dies_is_found() {
    // It replies to any number of bytes below a bound, so the frame that crosses it is the one.
    let own = env!("CARGO_BIN_EXE_model-probe");
    let script = format!("head -c 40000 > $0; [ $(wc -c < $0) -lt 40000 ] && {own} < $0");
    let file = PathBuf::from(env!("CARGO_TARGET_TMPDIR")).join("probe-dies");
    let file = file.to_string_lossy();
    let words =
        ["--generator", "size and fresh", "--jobs", "1", "--", "bash", "-c", &script, &file];
    let (output, lines, keep) = compare(&words, "probe-dies-kept");
    assert_eq!(output.status.code(), Some(1));
    assert!(
        lines.iter().any(|line| line.contains("no reply: program exit status 1")),
        "{lines:#?}"
    );
    assert!(lines.iter().any(|line| line.contains("what came before it matters")), "{lines:#?}");
    let kept = fs::read_dir(&keep).expect("the folder is there").flatten().count();
    assert_eq!(kept, 1);
}

#[test]
fn words_and_frames_that_are_wrong_are_refused() {
    for words in [&["--sed", "5"][..], &["--seed", "five"], &["--seed"], &["--"]] {
        let output = compare(words, "probe-words").0;
        assert_eq!(output.status.code(), Some(2), "{words:?}");
        assert!(String::from_utf8_lossy(&output.stderr).contains("usage: probe-compare"));
    }
    let mut child = Command::new(env!("CARGO_BIN_EXE_model-probe"))
        .stdin(Stdio::piped())
        .stderr(Stdio::piped())
        .spawn()
        .expect("it starts");
    child.stdin.take().expect("a pipe").write_all(b"x").expect("it reads");
    let output = child.wait_with_output().expect("it ends");
    assert_eq!(output.status.code(), Some(2));
    assert_eq!(output.stderr, b"model-probe: no frame begins with 78\n");
}
