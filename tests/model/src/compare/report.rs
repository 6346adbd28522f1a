//! What is printed and kept of a comparison.

use crate::compare::runner::{Failure, Tally};
use crate::listing;
use std::fmt::Write;
use std::fs;
use std::path::Path;

/// A difference in full: where the trace is kept, the shrunk listing, the two lines.
pub fn failure(failure: &Failure, seed: u64, keep: &Path) -> String {
    let case = failure.case;
    let mut text =
        format!("DIFFERENCE in suite {:?}, case {:?}, seed {seed}\n", case.suite, case.name);
    let stem = stem(&format!("{} {} seed {seed}", case.suite, case.name));
    let kept = keep_file(keep, &format!("{stem}.trace"), &failure.trace);
    let _ = writeln!(text, "  trace of {} bytes {kept}", failure.trace.len());
    let difference = match &failure.shrunk {
        None => &failure.difference,
        Some((trace, difference)) => {
            let listing = listing::to_text(trace);
            let kept = keep_file(keep, &format!("{stem}.listing"), listing.as_bytes());
            let _ = writeln!(text, "  shrunk to {} lines, {kept}:", listing.lines().count());
            listing.lines().for_each(|line| text.extend(["    ", line, "\n"]));
            difference
        }
    };
    let _ = writeln!(text, "  first difference, in line {} of the output:", difference.line);
    let _ = writeln!(text, "    program: {}", difference.program);
    let _ = writeln!(text, "    model:   {}", difference.model);
    text
}

/// A file name of letters, digits and dashes.
fn stem(text: &str) -> String {
    let mut stem = String::new();
    for letter in text.chars().map(|letter| letter.to_ascii_lowercase()) {
        if letter.is_ascii_alphanumeric() {
            stem.push(letter);
        } else if !stem.ends_with('-') {
            stem.push('-');
        }
    }
    stem
}

/// Keeps bytes in a file and says where, or why not.
pub fn keep_file(folder: &Path, name: &str, bytes: &[u8]) -> String {
    let path = folder.join(name);
    match fs::create_dir_all(folder).and_then(|()| fs::write(&path, bytes)) {
        Ok(()) => format!("kept in {}", path.display()),
        Err(error) => format!("not kept, {}: {error}", path.display()),
    }
}

/// One line for a suite.
pub fn tally(tally: &Tally) -> String {
    let Tally { suite, passed, failed, left_out, events } = tally;
    let mut text = format!("{suite}: {passed} passed, {failed} failed, {events} events");
    if *left_out > 0 {
        let _ = write!(text, ", {left_out} not run");
    }
    text
}
