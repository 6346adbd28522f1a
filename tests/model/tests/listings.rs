//! Listings and raw traces, both ways, by the library and by the program.

use model::compare::random::Random;
use model::compare::steer;
use model::listing::{to_raw, to_text};
use std::io::Write;
use std::os::fd::OwnedFd;
use std::os::unix::net::UnixStream;
use std::process::{Command, Output, Stdio};

#[test]
fn every_event_has_its_line() {
    let lines = [
        (&[0x01, 0x40][..], "command WRITE"),
        (&[0x01, 0x60], "command WRITE FILE MARK"),
        (&[0x01, 0x80], "command READ"),
        (&[0x01, 0xA0], "command READ FILE MARK"),
        (&[0x01, 0xC0], "command READ STATUS"),
        (&[0x01, 0x21], "command BOT"),
        (&[0x01, 0x22], "command ERASE"),
        (&[0x01, 0x24], "command INITIALIZATION"),
        (&[0x01, 0x04], "command SELECT 2"),
        (&[0x01, 0x03], "command 03"),
        (&[0x02, 0x55], "give 55"),
        (&[0x03], "take"),
        (&[0x04], "online"),
        (&[0x05], "offline"),
        (&[0x06], "reset"),
        (&[0x07, 0x00], "cartridge in 0"),
        (&[0x07, 0x80], "cartridge in 0 protected"),
        (&[0x08, 0x03], "cartridge out 3"),
        (&[0x09, 0x01], "error 1"),
        (&[0x0A, 0x03], "underrun 3"),
    ];
    for (event, line) in lines {
        assert_eq!(to_text(event), format!("{line}\n"));
        assert_eq!(to_raw(line).as_deref(), Ok(event));
    }
    assert_eq!(to_text(&[0x02, 0x55].repeat(512)), "give 55 x512\n");
    assert_eq!(to_text(&[3; 6]), "take x6\n");
    assert!(to_text(&[0x07, 0xFF]).starts_with("bytes 07 FF  #"));
    assert!(to_text(&[0x07]).starts_with("bytes 07  #"));
    assert_eq!(to_text(&[]), "");
}

#[test]
fn raw_to_listing_to_raw_is_the_identity_for_any_bytes() {
    let mut random = Random::new(11);
    for round in 0..3_000 {
        let length = random.among(0..round / 10 + 2);
        let narrow = random.chance(700);
        let bytes: Vec<u8> = (0..length)
            .map(|_| if narrow { random.among(0..13) as u8 } else { random.byte() })
            .collect();
        assert_eq!(to_raw(&to_text(&bytes)).as_ref(), Ok(&bytes));
    }
    for _ in 0..20 {
        let mut trace = steer::disturbed(&mut random, 2_000);
        trace.extend(steer::malformed(&mut random));
        assert_eq!(to_raw(&to_text(&trace)).as_ref(), Ok(&trace));
    }
    // Every string of up to two bytes, and a run too long for one line.
    for first in 0..=255 {
        assert_eq!(to_raw(&to_text(&[first])), Ok(vec![first]));
        for second in 0..=255 {
            assert_eq!(to_raw(&to_text(&[first, second])), Ok(vec![first, second]));
        }
    }
    let long = vec![0x03; 2_000_001];
    assert_eq!(to_text(&long), "take x1000000\ntake x1000000\ntake\n");
    assert_eq!(to_raw(&to_text(&long)), Ok(long));
}

/// A line that people might write, in any case and with room and comments around.
fn any_line(random: &mut Random) -> String {
    let drive = random.drive();
    let byte = random.byte();
    let line = match random.among(0..13) {
        0 => format!("command {byte:02x}"),
        1 => "command write file mark".into(),
        2 => format!("Command Select {drive}"),
        3 => format!("give {byte:02X} x{}", random.among(1..600)),
        4 => format!("  take   x{}", random.among(1..9)),
        5 => "online".into(),
        6 => "OFFLINE x2".into(),
        7 => "reset # by hand".into(),
        8 => format!("cartridge\tin {drive} protected"),
        9 => format!("cartridge out {drive}"),
        10 => format!("error {drive} x3"),
        11 => format!("bytes 0B {byte:02x}"),
        _ => "".into(),
    };
    line + random.pick(&["\n", "\r\n", "  # a word\n", "\n\n#\n"])
}

#[test]
fn listing_to_raw_to_listing_says_the_same() {
    let mut random = Random::new(12);
    for _ in 0..2_000 {
        let count = random.among(0..30);
        let text: String = (0..count).map(|_| any_line(&mut random)).collect();
        let raw = to_raw(&text).expect("every line is right");
        let again = to_text(&raw);
        assert_eq!(to_raw(&again), Ok(raw));
        assert_eq!(to_text(&to_raw(&again).unwrap()), again);
    }
}

#[test]
fn what_is_wrong_is_told_with_its_line() {
    let wrong = [
        ("take\n\nwrite", "line 3: not an event: write"),
        ("command WRTE", "line 1: no such command: WRTE"),
        ("command", "line 1: no such command: "),
        ("command SELECT 4", "line 1: a drive is 0 to 3, not 4"),
        ("# so\ngive 5", "line 2: a byte is two hexadecimal digits, not 5"),
        ("give +5", "line 1: a byte is two hexadecimal digits, not +5"),
        ("give 55 x0", "line 1: a count is x1 to x1000000, not x0"),
        ("take x1000001", "line 1: a count is x1 to x1000000, not x1000001"),
        ("take x+1", "line 1: a count is x1 to x1000000, not x+1"),
        ("cartridge in", "line 1: not an event: cartridge in"),
        ("cartridge in 0 open", "line 1: not an event: cartridge in 0 open"),
        ("error 9", "line 1: a drive is 0 to 3, not 9"),
        ("bytes", "line 1: not an event: bytes"),
        ("x3", "line 1: not an event: x3"),
    ];
    for (text, told) in wrong {
        assert_eq!(to_raw(text), Err(told.to_string()));
    }
}

/// The program with these words and this input.
fn listing(words: &[&str], input: &[u8]) -> Output {
    listing_to(words, input, [Stdio::piped(), Stdio::piped()])
}

/// The same, with its output and what it says going here.
fn listing_to(words: &[&str], input: &[u8], [out, err]: [Stdio; 2]) -> Output {
    let mut child = Command::new(env!("CARGO_BIN_EXE_listing"))
        .args(words)
        .stdin(Stdio::piped())
        .stdout(out)
        .stderr(err)
        .spawn()
        .expect("it starts");
    // It may have ended already when its words were wrong.
    let _ = child.stdin.take().expect("a pipe").write_all(input);
    child.wait_with_output().expect("it ends")
}

#[test]
fn the_program_turns_both_ways() {
    let raw = listing(&["raw"], b"cartridge in 0\ntake x3 # so\n");
    assert_eq!((raw.status.code(), raw.stdout), (Some(0), vec![0x07, 0x00, 0x03, 0x03, 0x03]));
    let text = listing(&["text", "-"], &[0x07, 0x00, 0x03, 0x03, 0x03]);
    assert_eq!((text.status.code(), text.stdout), (Some(0), b"cartridge in 0\ntake x3\n".into()));
    let wrong = listing(&["raw"], b"take\ntoke\n");
    assert_eq!(wrong.status.code(), Some(1));
    assert_eq!(wrong.stderr, b"listing: standard input: line 2: not an event: toke\n");
    assert_eq!(listing(&["raw"], &[0xFF]).stderr, b"listing: standard input: not a text\n");
    assert_eq!(listing(&["raw", "no-such-file"], b"").status.code(), Some(1));
    for words in [&[][..], &["both"], &["raw", "a", "b"]] {
        let usage = listing(words, b"");
        assert_eq!(usage.status.code(), Some(2));
        assert!(usage.stderr.starts_with(b"usage: listing raw"));
    }
}

/// A pipe whose reader has gone.
fn closed() -> Stdio {
    let (_reader, writer) = UnixStream::pair().expect("there are sockets");
    OwnedFd::from(writer).into()
}

#[test]
fn a_reader_that_has_gone_ends_the_program_quietly() {
    let long = "give 55 x1000000\n".repeat(2);
    for (words, input) in [
        (&["--help"][..], &[][..]),
        (&["-h"], &[]),
        (&["raw"], b"take"),
        (&["raw"], long.as_bytes()),
        (&["text"], &[0x03]),
    ] {
        let ended = listing_to(words, input, [closed(), Stdio::piped()]);
        assert_eq!((ended.status.code(), ended.stderr), (Some(0), vec![]), "{words:?}");
    }
    for (words, code) in [(&["raw"][..], 1), (&["both"], 2)] {
        let ended = listing_to(words, b"toke", [Stdio::piped(), closed()]);
        assert_eq!((ended.status.code(), ended.stdout), (Some(code), vec![]), "{words:?}");
    }
}
