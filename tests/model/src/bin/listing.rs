//! Turns a readable listing into a raw trace, and a raw trace into a listing.

use model::listing;
use std::io::{self, Read, Write};
use std::process::ExitCode;

const USAGE: &str = "usage: listing raw [FILE]    a listing in, a raw trace out
       listing text [FILE]   a raw trace in, a listing out
  without FILE, or with -, from standard input; always to standard output

A listing has one event a line; # begins a comment; xN repeats the line's event:
  command WRITE         BOT, ERASE, INITIALIZATION, WRITE, WRITE FILE MARK, READ,
                        READ FILE MARK, READ STATUS, SELECT 0 to 3, or two hex digits
  give 55 x512          bytes given by the host
  take x6               bytes taken by the host
  online, offline       the ONLINE level
  reset
  cartridge in 0        cartridge in 0 protected, cartridge out 0
  error 1, underrun 3   counts on a drive
  bytes 07 FF           any bytes, an event or not";

fn main() -> ExitCode {
    let words: Vec<String> = std::env::args().skip(1).collect();
    let words: Vec<&str> = words.iter().map(String::as_str).collect();
    let done = match words.as_slice() {
        ["--help" | "-h"] => write(format!("{USAGE}\n").as_bytes()),
        [way @ ("raw" | "text")] => convert(way, "-"),
        [way @ ("raw" | "text"), file] => convert(way, file),
        _ => {
            say(USAGE);
            return ExitCode::from(2);
        }
    };
    match done {
        Ok(()) => ExitCode::SUCCESS,
        Err(wrong) => {
            say(&format!("listing: {wrong}"));
            ExitCode::FAILURE
        }
    }
}

/// Reads all, turns it, writes all.
fn convert(way: &str, file: &str) -> Result<(), String> {
    let name = if file == "-" { "standard input" } else { file };
    let input = read(file).map_err(|error| format!("{name}: {error}"))?;
    let output = if way == "text" {
        listing::to_text(&input).into_bytes()
    } else {
        let text = String::from_utf8(input).map_err(|_| format!("{name}: not a text"))?;
        listing::to_raw(&text).map_err(|wrong| format!("{name}: {wrong}"))?
    };
    write(&output)
}

/// Writes to standard output.
fn write(output: &[u8]) -> Result<(), String> {
    let mut out = io::stdout().lock();
    match out.write_all(output).and_then(|()| out.flush()) {
        // The reader may have seen enough: replay stops at bytes that are no event.
        Err(error) if error.kind() == io::ErrorKind::BrokenPipe => Ok(()),
        result => result.map_err(|error| format!("standard output: {error}")),
    }
}

/// Says what is wrong, if anybody listens.
fn say(text: &str) {
    let _ = writeln!(io::stderr(), "{text}");
}

fn read(file: &str) -> io::Result<Vec<u8>> {
    if file != "-" {
        return std::fs::read(file);
    }
    let mut input = Vec::new();
    io::stdin().read_to_end(&mut input)?;
    Ok(input)
}
