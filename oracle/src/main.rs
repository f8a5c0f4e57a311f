//! Prints what the Rust module gives: for cases on standard input, for every
//! type's name, and for two lists of cases of its own; and judges a dump
//! program by it.

use std::error::Error;
use std::ffi::{OsStr, OsString};
use std::io::{self, Read, Write};
use std::process::ExitCode;

use oracle::batch::{mask_cases, push_cases};
use oracle::judge::{self, Difference};

/// What the program says when it is called with other words.
const USAGE: &str = "\
usage: oracle push    a batch of pushes on standard input; prints the records of each
       oracle names   prints all names
       oracle mask    a batch of masks on standard input; prints each masked prefix
       oracle cases   prints the text of crates/meaning/specs/Examples/RustCases.antt
       oracle replay  writes the octets of crates/replay/stdin
       oracle dump    a dump program's input on standard input; prints what it is to print
       oracle judge COMMAND..
                      runs a dump program on hundreds of inputs, and compares what it prints with
                      what it is to print; exit status 1 at the first difference";

/// The end of a run: done, or a message for standard error.
type Run = Result<(), Box<dyn Error>>;

fn main() -> ExitCode {
    let words: Vec<OsString> = std::env::args_os().skip(1).collect();
    match run(&words) {
        Ok(()) => ExitCode::SUCCESS,
        Err(message) => {
            eprintln!("{message}");
            status(&*message)
        }
    }
}

/// The exit status after a message: 1 for a wrong dump program, 2 for all else.
fn status(message: &(dyn Error + 'static)) -> ExitCode {
    ExitCode::from(if message.is::<Difference>() { 1 } else { 2 })
}

/// Does what the words ask for.
fn run(words: &[OsString]) -> Run {
    match words {
        [word] if word == "push" => print_pushes(),
        [word] if word == "names" => print_names(),
        [word] if word == "mask" => print_masks(),
        [word] if word == "cases" => print_cases(),
        [word] if word == "replay" => write_replay(),
        [word] if word == "dump" => print_dump(),
        [word, program, arguments @ ..] if word == "judge" => judge(program, arguments),
        _ => Err(USAGE.into()),
    }
}

/// Prints the dump of every push on standard input.
fn print_pushes() -> Run {
    let batch = standard_input()?;
    let mut out = io::BufWriter::new(io::stdout().lock());
    for case in push_cases(&batch)? {
        let push = oracle::push(case.registry, case.base, case.area);
        out.write_all(oracle::dump(&push).as_bytes())?;
    }
    Ok(out.flush()?)
}

/// Prints all names.
fn print_names() -> Run {
    Ok(io::stdout().write_all(oracle::listing().as_bytes())?)
}

/// Prints every masked prefix of the batch on standard input.
fn print_masks() -> Run {
    let batch = standard_input()?;
    let mut out = io::BufWriter::new(io::stdout().lock());
    for case in mask_cases(&batch)? {
        let mut prefix = case.prefix.to_vec();
        oracle::mask_prefix(&mut prefix, case.bits as usize);
        writeln!(out, "{}", oracle::hex(&prefix, " "))?;
    }
    Ok(out.flush()?)
}

/// Prints what the module gives for its own list of areas.
fn print_cases() -> Run {
    Ok(io::stdout().write_all(oracle::cases().as_bytes())?)
}

/// Writes the list of the replay program.
fn write_replay() -> Run {
    Ok(io::stdout().write_all(&oracle::replay())?)
}

/// Prints what the dump program is to print for standard input.
fn print_dump() -> Run {
    let text = oracle::dumped(&standard_input()?);
    Ok(io::stdout().write_all(text.as_bytes())?)
}

/// Runs a dump program on every input, and says that it printed what it is to print.
fn judge(program: &OsStr, arguments: &[OsString]) -> Run {
    let inputs = oracle::dump_inputs();
    let printer = |input: &[u8]| judge::run(program, arguments, input);
    match judge::first_difference(&inputs, printer) {
        Ok(None) => Ok(say_right(inputs.len())?),
        Ok(Some(difference)) => Err(difference.into()),
        Err(error) => Err(format!("{}: {error}", program.to_string_lossy()).into()),
    }
}

/// Says that so many inputs were printed right.
fn say_right(count: usize) -> io::Result<()> {
    let mut out = io::stdout();
    writeln!(
        out,
        "{count} inputs, each printed as the Rust and documents 01 and 02 say"
    )
}

/// All octets of standard input.
fn standard_input() -> io::Result<Vec<u8>> {
    let mut octets = Vec::new();
    io::stdin().lock().read_to_end(&mut octets)?;
    Ok(octets)
}
