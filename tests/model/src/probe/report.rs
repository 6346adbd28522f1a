//! Frames and differences in words.

use crate::listing;
use crate::probe::codec;
use crate::probe::frame::{Asked, Frame, Lent, Step};
use crate::probe::reply::{Came, Reply, Stepped, Trimmed};
use crate::probe::runner::Difference;
use crate::state::Unit;
use std::fmt::Write;
use std::ops::Range;

/// A difference: the frame, then what each side made of it, line by line.
pub fn difference(difference: &Difference) -> String {
    let mut text = frame(&difference.frame);
    let model = Reply::read(&difference.model);
    match (difference.reply.clone().and_then(|bytes| Reply::read(&bytes)), model) {
        (Err(wrong), _) => line(&mut text, "no reply", &wrong, "a reply"),
        (Ok(Reply::Step(program)), Ok(Reply::Step(model))) => {
            steps(&mut text, &program, &model);
        }
        (Ok(program), model) => {
            line(&mut text, "reply", &format!("{program:02X?}"), &format!("{model:02X?}"))
        }
    }
    text
}

fn line(text: &mut String, what: &str, program: &str, model: &str) {
    let _ = writeln!(text, "    {what}: program {program}, model {model}");
}

/// A frame in words.
pub fn frame(frame: &Frame) -> String {
    let mut text = String::new();
    match frame {
        Frame::Size => text.push_str("  size\n"),
        Frame::Fresh(record) => {
            let _ = writeln!(text, "  fresh in {} bytes", record.len());
        }
        Frame::Step(step) => write_step(&mut text, step),
    }
    text
}

fn write_step(text: &mut String, step: &Step) {
    match codec::decode(&step.record) {
        Ok(unit) => write_unit(text, &unit),
        Err(flaw) => {
            let start: String = hex(&step.record[..step.record.len().min(codec::STAGING)]);
            let _ = writeln!(text, "  no record ({flaw:?}), {} bytes: {start}", step.record.len());
        }
    }
    for (at, Lent { length, at: from, given }) in step.tapes.iter().enumerate() {
        let _ = writeln!(text, "  tape {at}: {length} bytes, from {from}: {}", hex(given));
    }
    let _ = match &step.asked {
        Asked::Event(event) => {
            let name = listing::to_text(event);
            let name = name.lines().next().unwrap_or("nothing");
            writeln!(text, "  event: {} ({name})", hex(event))
        }
        Asked::Give(bytes) => writeln!(text, "  give {} bytes: {}", bytes.len(), hex(bytes)),
        Asked::Take(buffer) => writeln!(text, "  take into {}: {}", buffer.len(), hex(buffer)),
    };
}

fn write_unit(text: &mut String, unit: &Unit) {
    let Unit { selected, online, phase, octets, staging, drives } = unit;
    let why = if unit.impossible() { ", impossible" } else { "" };
    let _ = writeln!(text, "  record: selected {selected}, ONLINE {online}, {phase:?}{why}");
    let _ = writeln!(text, "    octets {}, staging {}", hex(octets), hex(staging));
    for (at, drive) in drives.iter().enumerate() {
        let _ = writeln!(text, "    {at}: {drive:?}");
    }
}

/// At most some bytes in hex.
fn hex(bytes: &[u8]) -> String {
    const SHOWN: usize = 24;
    let shown = bytes.iter().take(SHOWN).map(|byte| format!("{byte:02X}"));
    let mut words: Vec<String> = shown.collect();
    if bytes.len() > SHOWN {
        words.push(format!(".. ({} bytes)", bytes.len()));
    }
    words.join(" ")
}

/// All that two steps differ in.
fn steps(text: &mut String, program: &Stepped, model: &Stepped) {
    came(text, &program.came, &model.came);
    let names = ["answer", "byte given", "byte", "READY", "EXCEPTION", "DIRECTION"];
    for (at, name) in names.iter().enumerate() {
        byte(text, name, program.result[at], model.result[at]);
    }
    let names = ["lines call", "its READY", "its EXCEPTION", "its DIRECTION"];
    for (at, name) in names.iter().enumerate() {
        byte(text, name, program.lines[at], model.lines[at]);
    }
    lengths(text, "record", &program.record, &model.record);
    for (at, (one, other)) in program.record.iter().zip(&model.record).enumerate() {
        byte(text, &format!("record byte {at}, {}", codec::field(at)), *one, *other);
    }
    for (at, (one, other)) in program.tapes.iter().zip(&model.tapes).enumerate() {
        tapes(text, at, one, other);
    }
}

/// How many bytes went over, and the buffers that they were taken into.
fn came(text: &mut String, program: &Came, model: &Came) {
    let [one, other] = [program, model].map(|came| match came {
        Came::Event => ("of an event".into(), &[][..]),
        Came::Give(count) => (format!("{count} given"), &[][..]),
        Came::Take(count, buffer) => (format!("{count} taken"), &buffer[..]),
    });
    if one.0 != other.0 {
        line(text, "bytes", &one.0, &other.0);
    }
    lengths(text, "buffer", one.1, other.1);
    let both = 0..one.1.len().min(other.1.len());
    places(text, "buffer", both, |place| (one.1[place], other.1[place]));
}

fn lengths(text: &mut String, what: &str, program: &[u8], model: &[u8]) {
    if program.len() != model.len() {
        let [one, other] = [program, model].map(|bytes| bytes.len().to_string());
        line(text, &format!("{what} length"), &one, &other);
    }
}

/// The places where two tapes differ.
fn tapes(text: &mut String, at: usize, program: &Trimmed, model: &Trimmed) {
    if program == model {
        return;
    }
    let end = |tape: &Trimmed| tape.first as usize + tape.bytes.len();
    let both = program.first.min(model.first) as usize..end(program).max(end(model));
    places(text, &format!("tape {at}"), both, |place| (program.at(place), model.at(place)));
}

/// The places where two rows of bytes differ; the first of them byte by byte.
fn places(text: &mut String, what: &str, all: Range<usize>, at: impl Fn(usize) -> (u8, u8)) {
    let differ = all.map(|place| (place, at(place))).filter(|(_, (one, other))| one != other);
    let places: Vec<_> = differ.collect();
    for (place, (program, model)) in places.iter().take(4) {
        byte(text, &format!("{what} at {place}"), *program, *model);
    }
    if places.len() > 4 {
        let _ = writeln!(text, "    {what}: {} bytes differ in all", places.len());
    }
}

fn byte(text: &mut String, what: &str, program: u8, model: u8) {
    if program != model {
        line(text, what, &format!("{program:02X}"), &format!("{model:02X}"));
    }
}
