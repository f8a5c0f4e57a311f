//! The command `wakkemosut`: shows people what IS-IS sub-TLV areas say, as the proved library reads
//! them.

#![forbid(unsafe_code)]

mod area;
mod decimal;
mod failure;
mod help;
mod input;
mod json;
mod listing;
mod octets;
mod quote;
mod records;
mod registries;
mod style;
mod words;

use std::env;
use std::ffi::OsString;
use std::io::{self, ErrorKind, Write};
use std::process::ExitCode;

use failure::Failure;
use words::Command;

fn main() -> ExitCode {
    match answer(env::args_os().skip(1)).and_then(|text| print(&text)) {
        Ok(()) => ExitCode::SUCCESS,
        Err(failure) => tell(&failure),
    }
}

/// The text that answers the words of a call.
fn answer(words: impl Iterator<Item = OsString>) -> Result<String, Failure> {
    match words::take_apart(words)? {
        Command::Help => Ok(help::page()),
        Command::Version => Ok(help::version()),
        Command::Area(words) => area::answer(words),
    }
}

/// Writes the answer to standard output. A reader that has gone away is no failure.
fn print(text: &str) -> Result<(), Failure> {
    let mut out = io::stdout().lock();
    let written = out.write_all(text.as_bytes()).and_then(|()| out.flush());
    match written {
        Err(error) if error.kind() != ErrorKind::BrokenPipe => Err(Failure::Output(error)),
        _ => Ok(()),
    }
}

/// Tells a failure on standard error, and gives its status.
fn tell(failure: &Failure) -> ExitCode {
    // Where standard error cannot be written, the status is all that is left to tell it by.
    let _ = io::stderr().write_all(failure.text().as_bytes());
    ExitCode::from(failure.status())
}

#[cfg(test)]
mod tests {
    use super::*;

    /// Numbers that look random, the same in every run (Knuth, MMIX).
    struct Random(u64);

    impl Random {
        /// A number below a limit.
        fn below(&mut self, limit: usize) -> usize {
            let product = self.0.wrapping_mul(6_364_136_223_846_793_005);
            self.0 = product.wrapping_add(1_442_695_040_888_963_407);
            (self.0 >> 33) as usize % limit
        }

        /// One of several.
        fn one_of<Choice: Copy>(&mut self, choices: &[Choice]) -> Choice {
            choices[self.below(choices.len())]
        }

        /// An entry in hex, mostly of a type and a length that are read.
        fn entry(&mut self) -> String {
            let kind = match self.below(8) {
                0 => self.below(256),
                _ => self.below(46),
            };
            let length = self.below(40);
            let mut octet = || match self.below(4) {
                3 => self.below(256),
                low => [0, 1, 4][low],
            };
            let value: String = (0..length).map(|_| format!("{:02x}", octet())).collect();
            format!("{kind:02x}{length:02X}{value}\n")
        }

        /// An area in hex, which may break off anywhere.
        fn area(&mut self) -> String {
            let entries = self.below(6);
            let mut area: String = (0..entries).map(|_| self.entry()).collect();
            area.truncate(area.len() - self.below(area.len() + 1) / 8);
            area
        }
    }

    /// What words are answered with, or what is told.
    fn said(words: &[&str]) -> Result<String, Failure> {
        answer(words.iter().map(OsString::from))
    }

    /// Asserts that an answer has lines that can be printed.
    fn assert_printed(answer: &str) {
        assert!(answer.ends_with('\n'), "{answer:?}");
        for line in answer.lines() {
            assert!(
                !line.ends_with(' ') && !line.contains(char::is_control),
                "{line:?}"
            );
        }
    }

    #[test]
    fn every_area_has_an_answer() {
        let mut random = Random(1);
        let mut done = 0;
        for _ in 0..20_000 {
            let registry = random.one_of(&["0", "1", "2", "3", "4", "5"]);
            let form = random.one_of(&["--json", "--records", "--"]);
            match said(&["area", form, registry, "7", &random.area()]) {
                Ok(answer) => {
                    assert_printed(&answer);
                    done += 1;
                }
                Err(failure) => assert!(failure.text().contains("is not whole octets")),
            }
        }
        assert!(done > 10_000, "{done}");
    }

    #[test]
    fn all_words_have_an_answer() {
        let choices = [
            &["area", "0", "6", "neighbor", "100", "4294967295"][..],
            &["99999999999999999999", "./no/such", "help", "é", "", "-é"],
            &["--json", "--records", "--file", "--file=./no", "--binary"],
            &["--", "--help", "-h", "-V", "--=", "1200", "\n"],
            &["12", "03 00", "1", "0x", "12::03", "0000", "0x12"],
        ]
        .concat();
        let mut random = Random(2);
        for _ in 0..50_000 {
            let count = random.below(7);
            let mut words: Vec<&str> = (0..count).map(|_| random.one_of(&choices)).collect();
            if random.below(8) > 0 {
                words.insert(0, "area");
            }
            match said(&words) {
                Ok(answer) => assert_printed(&answer),
                Err(failure) => {
                    assert_printed(&failure.text());
                    assert!([1, 2].contains(&failure.status()), "{words:?}");
                }
            }
        }
    }
}
