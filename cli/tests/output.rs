//! Where the answer goes: closed pipes, full disks, terminals.

mod shared;

use std::fs::OpenOptions;
use std::io::{Read, Write};
use std::process::Stdio;

use shared::{WORKED, command};

#[test]
fn a_reader_that_goes_away_is_no_failure() {
    let mut command = command();
    command.args(["area", "5", "0", "-"]).stdin(Stdio::piped());
    let mut child = command
        .stdout(Stdio::piped())
        .stderr(Stdio::piped())
        .spawn()
        .unwrap();
    drop(child.stdout.take());
    let mut input = child.stdin.take().unwrap();
    input.write_all("00".repeat(60_000).as_bytes()).unwrap();
    drop(input);
    let output = child.wait_with_output().unwrap();
    assert_eq!(
        (output.status.code(), &output.stderr[..]),
        (Some(0), &b""[..])
    );
}

#[test]
fn a_reader_may_take_a_line_alone() {
    let mut command = command();
    command.args(["area", "5", "0", "-"]).stdin(Stdio::piped());
    let mut child = command
        .stdout(Stdio::piped())
        .stderr(Stdio::piped())
        .spawn()
        .unwrap();
    let mut input = child.stdin.take().unwrap();
    input.write_all("00".repeat(60_000).as_bytes()).unwrap();
    drop(input);
    let mut first = [0; 12];
    child.stdout.take().unwrap().read_exact(&mut first).unwrap();
    assert_eq!(&first, b"unregistered");
    let output = child.wait_with_output().unwrap();
    assert_eq!(
        (output.status.code(), &output.stderr[..]),
        (Some(0), &b""[..])
    );
}

#[cfg(target_os = "linux")]
#[test]
fn an_answer_that_cannot_be_written_is_told() {
    for words in [&["area", "0", "0", "12"][..], &["--help"], &["--version"]] {
        let full = OpenOptions::new().write(true).open("/dev/full").unwrap();
        let output = command().args(words).stdout(full).output().unwrap();
        let told = "wakkemosut: the answer cannot be written: \
                    No space left on device (os error 28)\n";
        assert_eq!(String::from_utf8_lossy(&output.stderr), told);
        assert_eq!(output.status.code(), Some(1));
    }
}

#[test]
fn there_are_no_colours_away_from_a_terminal() {
    let plain = command()
        .args(["area", "0", "100", WORKED])
        .output()
        .unwrap();
    for (name, value) in [
        ("NO_COLOR", "1"),
        ("NO_COLOR", ""),
        ("TERM", "xterm"),
        ("TERM", "dumb"),
    ] {
        let mut command = command();
        command.args(["area", "0", "100", WORKED]).env(name, value);
        assert_eq!(command.output().unwrap(), plain, "{name}={value}");
    }
    assert!(!plain.stdout.contains(&0x1B) && plain.status.success());
}
