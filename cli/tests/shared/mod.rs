//! What tests of the built command share.

#![allow(dead_code)]

use std::env;
use std::ffi::OsStr;
use std::fs;
use std::io::Write;
use std::path::PathBuf;
use std::process::{Command, Stdio};
use std::sync::atomic::{AtomicUsize, Ordering};

/// The area that docs/MEANING.md works out by hand.
pub const WORKED: &str = "12 03 00 00 0A
    1F 05 30 00 00 5D C5
    21 04 80 00 03 E8
    2B 1C 00 00 00 00 05 FC 00 00 00 00 01 00 00 E0 01 00 00 00 00 00 00 06 01 04 28 10 10 00
    06 04 0A 00";

/// What a call of the command gave.
#[derive(Debug, PartialEq, Eq)]
pub struct Said {
    /// What it wrote to standard output.
    pub out: String,
    /// What it wrote to standard error.
    pub error: String,
    /// The status that it ended with.
    pub status: Option<i32>,
}

/// The command, without words, away from the terminal.
pub fn command() -> Command {
    let mut command = Command::new(env!("CARGO_BIN_EXE_wakkemosut"));
    command.stdin(Stdio::null());
    command
}

/// What a call with these words gives.
pub fn said<Word: AsRef<OsStr>>(words: &[Word]) -> Said {
    said_to(words, b"")
}

/// What a call with these words gives, and with these octets on standard input.
pub fn said_to<Word: AsRef<OsStr>>(words: &[Word], input: &[u8]) -> Said {
    let mut command = command();
    command.args(words).stdin(Stdio::piped());
    command.stdout(Stdio::piped()).stderr(Stdio::piped());
    let mut child = command.spawn().expect("the command starts");
    let mut to_child = child.stdin.take().expect("its input is piped");
    let input = input.to_vec();
    // A command that does not read all of its input closes it: that is no failure of the test.
    let writer = std::thread::spawn(move || drop(to_child.write_all(&input)));
    let output = child.wait_with_output().expect("the command ends");
    writer
        .join()
        .expect("the input was written as far as it was read");
    Said {
        out: String::from_utf8(output.stdout).expect("standard output is text"),
        error: String::from_utf8(output.stderr).expect("standard error is text"),
        status: output.status.code(),
    }
}

/// What a call that is done writes to standard output. It writes nothing to standard error.
pub fn shown<Word: AsRef<OsStr>>(words: &[Word]) -> String {
    let said = said(words);
    assert_eq!(
        (said.status, &said.error[..]),
        (Some(0), ""),
        "{}",
        said.out
    );
    said.out
}

/// Asserts that a call with these words ends with this status, writes nothing to standard output,
/// and these lines to standard error.
pub fn assert_told<Word: AsRef<OsStr>>(words: &[Word], status: i32, lines: &[&str]) {
    let said = said(words);
    let shown: Vec<_> = words.iter().map(|word| word.as_ref()).collect();
    assert_eq!(said.error.lines().collect::<Vec<_>>(), lines, "{shown:?}");
    assert_eq!(
        (said.status, &said.out[..]),
        (Some(status), ""),
        "{shown:?}"
    );
}

/// The line that points to the page of help.
pub const POINTER: &str = "'wakkemosut --help' says what can be written";

/// Asserts that words are refused as bad usage, with this message.
pub fn assert_usage<Word: AsRef<OsStr>>(words: &[Word], message: &str) {
    assert_told(words, 2, &[&format!("wakkemosut: {message}"), POINTER]);
}

/// A file of a test's own, which goes when the test does.
pub struct TestFile {
    path: PathBuf,
}

impl TestFile {
    /// A file that has these octets.
    pub fn of(octets: impl AsRef<[u8]>) -> Self {
        static COUNT: AtomicUsize = AtomicUsize::new(0);
        let number = COUNT.fetch_add(1, Ordering::Relaxed);
        let name = format!("wakkemosut-{}-{number}", std::process::id());
        let path = env::temp_dir().join(name);
        fs::write(&path, octets).expect("a file can be written");
        Self { path }
    }

    /// Its name.
    pub fn name(&self) -> &str {
        self.path
            .to_str()
            .expect("the folder for files has a name in UTF-8")
    }
}

impl Drop for TestFile {
    fn drop(&mut self) {
        // A file that cannot be removed is no failure of what was tested.
        let _ = fs::remove_file(&self.path);
    }
}
