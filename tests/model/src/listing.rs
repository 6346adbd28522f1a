//! Raw traces as text that people read and write, one event a line, and back.

use crate::commands::*;
use crate::{events, Event};
use std::fmt::Write;

/// The largest count of `xN` on one line; a longer run takes several lines.
pub const MOST: usize = 1_000_000;

/// Names of the commands that take no drive.
const NAMES: [(u8, &str); 8] = [
    (BOT, "BOT"),
    (ERASE, "ERASE"),
    (INITIALIZATION, "INITIALIZATION"),
    (WRITE, "WRITE"),
    (WRITE_FILE_MARK, "WRITE FILE MARK"),
    (READ, "READ"),
    (READ_FILE_MARK, "READ FILE MARK"),
    (READ_STATUS, "READ STATUS"),
];

/// The listing of any bytes at all.
pub fn to_text(trace: &[u8]) -> String {
    let mut text = String::new();
    let mut stopped = false;
    for (event, count) in runs(trace) {
        let line = line(event);
        text.push_str(&line);
        if count > 1 {
            let _ = write!(text, " x{count}");
        }
        if !stopped && Event::of(event).is_none() {
            stopped = true;
            text.push_str("  # no event: replay answers 4 here and stops");
        }
        text.push('\n');
    }
    text
}

/// Equal events that follow one another, with how many there are, `MOST` at most.
pub fn runs(trace: &[u8]) -> Vec<(&[u8], usize)> {
    let mut runs: Vec<(&[u8], usize)> = Vec::new();
    for event in events::all(trace) {
        match runs.last_mut() {
            Some((last, count)) if *last == event && *count < MOST => *count += 1,
            _ => runs.push((event, 1)),
        }
    }
    runs
}

/// One event, or the bytes that are none.
fn line(event: &[u8]) -> String {
    match Event::of(event) {
        Some(Event::Command(octet)) => format!("command {}", command_name(octet)),
        Some(Event::Give(byte)) => format!("give {byte:02X}"),
        Some(Event::Take) => "take".into(),
        Some(Event::OnlineRaised) => "online".into(),
        Some(Event::OnlineDropped) => "offline".into(),
        Some(Event::Reset) => "reset".into(),
        Some(Event::CartridgeIn { drive, protected: false }) => format!("cartridge in {drive}"),
        Some(Event::CartridgeIn { drive, protected: true }) => {
            format!("cartridge in {drive} protected")
        }
        Some(Event::CartridgeOut(drive)) => format!("cartridge out {drive}"),
        Some(Event::Error(drive)) => format!("error {drive}"),
        Some(Event::Underrun(drive)) => format!("underrun {drive}"),
        None => event.iter().fold("bytes".into(), |text, byte| format!("{text} {byte:02X}")),
    }
}

/// A command by its name, or by its octet if no command has it.
fn command_name(octet: u8) -> String {
    if let Some(drive) = SELECT.iter().position(|&code| code == octet) {
        return format!("SELECT {drive}");
    }
    match NAMES.iter().find(|(code, _)| *code == octet) {
        Some((_, name)) => name.to_string(),
        None => format!("{octet:02X}"),
    }
}

/// The raw trace of a listing, or what is wrong with which line.
pub fn to_raw(text: &str) -> Result<Vec<u8>, String> {
    let mut trace = Vec::new();
    for (index, line) in text.lines().enumerate() {
        let line = line.split('#').next().unwrap_or("");
        let words: Vec<String> = line.split_whitespace().map(str::to_ascii_lowercase).collect();
        let words: Vec<&str> = words.iter().map(String::as_str).collect();
        let (event, count) =
            counted(&words).map_err(|wrong| format!("line {}: {wrong}", index + 1))?;
        trace.reserve(event.len() * count);
        (0..count).for_each(|_| trace.extend_from_slice(&event));
    }
    Ok(trace)
}

/// The bytes of a line's words and how often they come; no words are no bytes.
fn counted(words: &[&str]) -> Result<(Vec<u8>, usize), String> {
    match words {
        [] => Ok((Vec::new(), 1)),
        [event @ .., count] if !event.is_empty() && count.starts_with('x') => {
            let count = plain_number(&count[1..])
                .filter(|count| (1..=MOST).contains(count))
                .ok_or_else(|| format!("a count is x1 to x{MOST}, not {count}"))?;
            Ok((event_of(event)?, count))
        }
        event => Ok((event_of(event)?, 1)),
    }
}

/// Decimal digits and nothing else.
fn plain_number(digits: &str) -> Option<usize> {
    let plain = !digits.is_empty() && digits.bytes().all(|digit| digit.is_ascii_digit());
    plain.then(|| digits.parse().ok()).flatten()
}

/// The bytes that one event's words stand for.
fn event_of(words: &[&str]) -> Result<Vec<u8>, String> {
    match words {
        ["command", name @ ..] => Ok(vec![0x01, octet_of(name)?]),
        ["give", byte] => Ok(vec![0x02, hex(byte)?]),
        ["take"] => Ok(vec![0x03]),
        ["online"] => Ok(vec![0x04]),
        ["offline"] => Ok(vec![0x05]),
        ["reset"] => Ok(vec![0x06]),
        ["cartridge", "in", drive] => Ok(vec![0x07, number(drive)?]),
        ["cartridge", "in", drive, "protected"] => Ok(vec![0x07, 0x80 | number(drive)?]),
        ["cartridge", "out", drive] => Ok(vec![0x08, number(drive)?]),
        ["error", drive] => Ok(vec![0x09, number(drive)?]),
        ["underrun", drive] => Ok(vec![0x0A, number(drive)?]),
        ["bytes", bytes @ ..] if !bytes.is_empty() => bytes.iter().map(|byte| hex(byte)).collect(),
        _ => Err(format!("not an event: {}", words.join(" "))),
    }
}

/// The octet of a command's words: SELECT and a drive, a name, or two hexadecimal digits.
fn octet_of(words: &[&str]) -> Result<u8, String> {
    if let ["select", drive] = words {
        return Ok(SELECT[number(drive)? as usize]);
    }
    let name = words.join(" ").to_ascii_uppercase();
    match NAMES.iter().find(|(_, known)| *known == name) {
        Some((code, _)) => Ok(*code),
        None => hex(&name).map_err(|_| format!("no such command: {name}")),
    }
}

/// Two hexadecimal digits.
fn hex(word: &str) -> Result<u8, String> {
    let plain = word.len() == 2 && word.bytes().all(|digit| digit.is_ascii_hexdigit());
    plain
        .then(|| u8::from_str_radix(word, 16).ok())
        .flatten()
        .ok_or_else(|| format!("a byte is two hexadecimal digits, not {word}"))
}

/// A drive's number.
fn number(word: &str) -> Result<u8, String> {
    match word {
        "0" | "1" | "2" | "3" => Ok(word.as_bytes()[0] - b'0'),
        _ => Err(format!("a drive is 0 to 3, not {word}")),
    }
}
