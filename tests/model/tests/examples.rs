//! The examples of the repository are what the model says of them.

use model::{listing, replay};
use std::fs;
use std::path::PathBuf;

/// The files in the folder of examples with this ending, in order.
fn files(ending: &str) -> Vec<PathBuf> {
    let folder = PathBuf::from(env!("CARGO_MANIFEST_DIR")).join("../../examples");
    let entries = fs::read_dir(folder).expect("the folder is there").flatten();
    let mut files: Vec<PathBuf> = entries
        .map(|entry| entry.path())
        .filter(|path| path.extension().is_some_and(|found| found == ending))
        .collect();
    files.sort();
    files
}

#[test]
fn every_listing_gives_its_output() {
    for file in files("listing") {
        let text = fs::read_to_string(&file).expect("a listing is text");
        let trace = listing::to_raw(&text).unwrap_or_else(|wrong| panic!("{file:?}: {wrong}"));
        let output = fs::read(file.with_extension("out")).expect("its output is there");
        assert!(replay(&trace) == output, "{file:?}: run examples/make out");
        assert!(text.starts_with("# "), "{file:?}: no word on what it shows");
    }
}

#[test]
fn every_output_has_its_listing_or_program() {
    assert!(files("listing").len() >= 5);
    for file in files("out") {
        let made_from = ["listing", "c"].map(|ending| file.with_extension(ending));
        assert!(made_from.iter().any(|source| source.exists()), "{file:?}");
    }
}
