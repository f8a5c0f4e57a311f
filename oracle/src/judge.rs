//! What a dump program prints, against what it is to print.

use std::error::Error;
use std::ffi::{OsStr, OsString};
use std::fmt;
use std::io::{self, ErrorKind, Write};
use std::process::{Command, Stdio};
use std::thread;

use crate::dump::dumped;
use crate::hex::hex;

/// The most octets of an input or a line that are shown.
const MOST_SHOWN: usize = 60;

/// What a run of a program gave.
#[derive(Clone, Debug, PartialEq, Eq)]
pub struct Printed {
    /// The octets on standard output.
    pub text: Vec<u8>,
    /// The exit status; none where a signal ended the run.
    pub status: Option<i32>,
}

/// An input for which a program gave something else than it is to give.
#[derive(Clone, Debug, PartialEq, Eq)]
pub struct Difference {
    /// The octets on standard input.
    input: Vec<u8>,
    /// What the program is to give.
    expected: Printed,
    /// What it gave.
    printed: Printed,
}

/// The first of the inputs for which a printer gives something else than document 01's dump
/// program.
pub fn first_difference(
    inputs: &[Vec<u8>],
    printer: impl Fn(&[u8]) -> io::Result<Printed>,
) -> io::Result<Option<Difference>> {
    for input in inputs {
        let expected = expected(input);
        let printed = printer(input)?;
        if printed != expected {
            let input = input.clone();
            return Ok(Some(Difference {
                input,
                expected,
                printed,
            }));
        }
    }
    Ok(None)
}

/// What document 01's dump program gives for an input.
fn expected(input: &[u8]) -> Printed {
    Printed {
        text: dumped(input).into_bytes(),
        status: Some(0),
    }
}

/// Runs a program with these arguments on an input.
pub fn run(program: &OsStr, arguments: &[OsString], input: &[u8]) -> io::Result<Printed> {
    let mut child = Command::new(program)
        .args(arguments)
        .stdin(Stdio::piped())
        .stdout(Stdio::piped())
        .spawn()?;
    let stdin = child.stdin.take().expect("standard input is a pipe");
    let output = thread::scope(|scope| {
        let writer = scope.spawn(|| write_all(stdin, input));
        let output = child.wait_with_output()?;
        writer.join().expect("the writer does not panic")?;
        io::Result::Ok(output)
    })?;
    Ok(Printed {
        text: output.stdout,
        status: output.status.code(),
    })
}

/// Writes octets to a program, which may end before it has read them all.
fn write_all(mut to: impl Write, octets: &[u8]) -> io::Result<()> {
    match to.write_all(octets) {
        Err(error) if error.kind() == ErrorKind::BrokenPipe => Ok(()),
        written => written,
    }
}

impl fmt::Display for Difference {
    fn fmt(&self, out: &mut fmt::Formatter<'_>) -> fmt::Result {
        let (expected, printed) = (&self.expected, &self.printed);
        write!(out, "input of {} octets: ", self.input.len())?;
        write!(out, "{}", shortened(&self.input, |part| hex(part, " ")))?;
        if printed.text != expected.text {
            let (number, lines) = first_lines_apart([&expected.text, &printed.text]);
            let [expected, printed] = lines.map(shown_line);
            write!(out, "\nline {number} expected: {expected}")?;
            write!(out, "\nline {number} printed:  {printed}")?;
        }
        match printed.status {
            Some(0) => Ok(()),
            Some(status) => write!(out, "\nthe program ended with status {status}, not 0"),
            None => write!(out, "\na signal ended the program"),
        }
    }
}

impl Error for Difference {}

/// The number of the first line in which two texts differ, and that line of each.
fn first_lines_apart(texts: [&[u8]; 2]) -> (usize, [Option<&[u8]>; 2]) {
    let [one, other] = texts.map(lines);
    let same = one.zip(other).take_while(|(one, other)| one == other);
    let before = same.count();
    (before + 1, texts.map(|text| lines(text).nth(before)))
}

/// The lines of a text, each with its end.
fn lines(text: &[u8]) -> impl Iterator<Item = &[u8]> {
    text.split_inclusive(|&octet| octet == b'\n')
}

/// A line as it is shown, or that there is none.
fn shown_line(line: Option<&[u8]>) -> String {
    match line {
        Some(line) => shortened(line, |part| format!("\"{}\"", part.escape_ascii())),
        None => "nothing".into(),
    }
}

/// The text of octets, or of the first of them.
fn shortened(octets: &[u8], text: impl Fn(&[u8]) -> String) -> String {
    match octets.get(..MOST_SHOWN) {
        Some(first) if octets.len() > MOST_SHOWN => format!("{} ..", text(first)),
        _ => text(octets),
    }
}
