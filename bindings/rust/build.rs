//! Finds the static library `libboard.a` and has it linked.

use std::{env, path::PathBuf, process};

const FOLDER: &str = "GLENOULTY_LIB_DIR";

fn main() {
    println!("cargo:rerun-if-env-changed={FOLDER}");
    // elsewhere the crate can be checked and documented, but no program of it can be linked
    if env::var("CARGO_CFG_TARGET_ARCH").as_deref() != Ok("x86_64") {
        println!("cargo:warning=libboard.a is for x86-64 alone: nothing is linked for this target");
        return;
    }
    let folder = match env::var_os(FOLDER) {
        Some(folder) => PathBuf::from(folder),
        None => {
            PathBuf::from(env::var_os("CARGO_MANIFEST_DIR").unwrap()).join("../../target/staticlib")
        }
    };
    let library = folder.join("libboard.a");
    println!("cargo:rerun-if-changed={}", library.display());
    if !library.is_file() {
        eprintln!("glenoulty: there is no {}", library.display());
        eprintln!(
            "`tools/archive` in the repository makes it; {FOLDER} names another folder that has it"
        );
        process::exit(1);
    }
    println!("cargo:rustc-link-search=native={}", folder.display());
    println!("cargo:rustc-link-lib=static=board");
}
