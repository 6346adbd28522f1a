//! A program under test: a process, or a broken model in its place.

use crate::mutants;
use std::io::{Read, Write};
use std::os::unix::process::{CommandExt, ExitStatusExt};
use std::process::{Child, Command, ExitStatus, Stdio};
use std::sync::mpsc;
use std::thread;
use std::time::Duration;

/// How a trace is put on standard input.
#[derive(Clone, Copy, PartialEq, Eq, Debug)]
pub enum Feed {
    /// All at once.
    Whole,
    /// In pieces of so many bytes.
    Pieces(usize),
    /// Byte by byte with a pause after each, so that reads end anywhere.
    Slowly,
}

/// What turns a raw trace into text, or says why it could not.
pub trait Program: Sync {
    fn run(&self, trace: &[u8], feed: Feed) -> Result<Vec<u8>, String>;
}

/// A model with one rule broken, run without a process.
pub struct Mutant(pub usize);

impl Program for Mutant {
    fn run(&self, trace: &[u8], _: Feed) -> Result<Vec<u8>, String> {
        Ok(mutants::replay(self.0, trace))
    }
}

/// A program and its arguments, and the time it may take: so much, and more for each byte.
pub struct Process {
    pub words: Vec<String>,
    pub limit: Duration,
    pub pace: Duration,
    /// The largest exit status that is no failure.
    pub most_status: i32,
}

impl Process {
    /// A `replay`: document 01 fixes no exit status, but 126 and above are a shell's or a signal's.
    /// The time is generous: a slow and busy machine stays far below it.
    pub fn replay(words: Vec<String>, limit: Duration) -> Process {
        Process { words, limit, pace: Duration::from_micros(200), most_status: 125 }
    }
}

impl Program for Process {
    fn run(&self, trace: &[u8], feed: Feed) -> Result<Vec<u8>, String> {
        let mut child = Command::new(&self.words[0])
            .args(&self.words[1..])
            .stdin(Stdio::piped())
            .stdout(Stdio::piped())
            .stderr(Stdio::piped())
            .process_group(0)
            .spawn()
            .map_err(|error| format!("cannot start {}: {error}", self.words[0]))?;
        let limit = self.limit + self.pace * trace.len() as u32;
        let (text, complaint, status) = converse(&mut child, trace, feed, limit)?;
        judge(status, self.most_status)
            .map_err(|wrong| format!("{wrong} {complaint}").trim().into())
            .map(|()| text)
    }
}

type Conversation = (Vec<u8>, String, ExitStatus);

/// Writes and reads at the same time, so that neither side waits for the other for ever.
fn converse(
    child: &mut Child,
    trace: &[u8],
    feed: Feed,
    limit: Duration,
) -> Result<Conversation, String> {
    let input = child.stdin.take().expect("standard input is a pipe");
    let output = child.stdout.take().expect("standard output is a pipe");
    let errors = child.stderr.take().expect("standard error is a pipe");
    let (done, wait) = mpsc::channel();
    thread::scope(|scope| {
        scope.spawn(move || put(input, trace, feed));
        let complaint = scope.spawn(move || read_all(errors));
        let text = scope.spawn(move || {
            let text = read_all(output);
            let _ = done.send(());
            text
        });
        let in_time = wait.recv_timeout(limit).is_ok();
        if !in_time {
            kill_group(child.id());
        }
        let status = child.wait().map_err(|error| format!("cannot wait: {error}"))?;
        let text = text.join().expect("the reader does not panic");
        let complaint = complaint.join().expect("the reader does not panic");
        if !in_time {
            return Err(format!("no end within {} s", limit.as_secs()));
        }
        Ok((text, first_line(&complaint), status))
    })
}

/// The input; a program that stops reading early is in its right, so a broken pipe is no error.
fn put(mut input: impl Write, trace: &[u8], feed: Feed) {
    let size = match feed {
        Feed::Whole => trace.len().max(1),
        Feed::Pieces(size) => size,
        Feed::Slowly => 1,
    };
    for piece in trace.chunks(size) {
        if input.write_all(piece).is_err() {
            return;
        }
        if feed == Feed::Slowly {
            thread::sleep(Duration::from_micros(300));
        }
    }
}

fn read_all(mut from: impl Read) -> Vec<u8> {
    let mut all = Vec::new();
    // What came before a failure is still worth comparing.
    let _ = from.read_to_end(&mut all);
    all
}

fn first_line(text: &[u8]) -> String {
    String::from_utf8_lossy(text).lines().next().unwrap_or("").into()
}

/// Ends a program that does not end, and whatever it started, by the group made for it.
fn kill_group(id: u32) {
    let _ = Command::new("kill").args(["-KILL", "--", &format!("-{id}")]).status();
}

/// A program that died or was not found is told from others.
fn judge(status: ExitStatus, most: i32) -> Result<(), String> {
    if let Some(signal) = status.signal() {
        return Err(format!("ended by signal {signal}"));
    }
    match status.code() {
        Some(code) if code > most => Err(format!("exit status {code}")),
        _ => Ok(()),
    }
}
