//! Where the octets of an area come from.

use std::fmt;
use std::fs::File;
use std::io::{self, Read};
use std::path::Path;

use wakkemosut::LONGEST_AREA;

use crate::failure::Failure;
use crate::octets::{self, Wrong};
use crate::quote::quoted_whole;

/// The most octets of a text that are read: 16 MiB.
const LONGEST_TEXT: usize = 16 << 20;

/// The most octets that are read of a binary input: enough to see that an area is too long.
const LONGEST_BINARY: usize = LONGEST_AREA + 1;

/// What some editors write in front of a text.
const BYTE_ORDER_MARK: &[u8] = "\u{feff}".as_bytes();

/// Where octets come from, and how they are written there.
#[derive(Debug, PartialEq, Eq)]
pub enum Source {
    /// In hex, in words of the call.
    Words(Vec<String>),
    /// In hex, as a text.
    Text(Place),
    /// As they are.
    Binary(Place),
}

/// What is read.
#[derive(Debug, PartialEq, Eq)]
pub enum Place {
    /// Standard input.
    StandardInput,
    /// The file of this name.
    File(String),
}

impl Place {
    /// The place that a word names: `-` is standard input.
    pub fn of(word: &str) -> Self {
        match word {
            "-" => Self::StandardInput,
            name => Self::File(name.into()),
        }
    }

    /// Its octets, as far as so many.
    fn octets(&self, most: usize) -> Result<Vec<u8>, Failure> {
        let read = match self {
            Self::StandardInput => read_up_to(io::stdin().lock(), most),
            Self::File(name) => File::open(name).and_then(|file| read_up_to(file, most)),
        };
        read.map_err(|error| Failure::Input(format!("{self} cannot be read: {error}")))
    }
}

impl fmt::Display for Place {
    fn fmt(&self, out: &mut fmt::Formatter<'_>) -> fmt::Result {
        match self {
            Self::StandardInput => out.write_str("standard input"),
            Self::File(name) => out.write_str(&quoted_whole(name)),
        }
    }
}

/// An area as it was read.
#[derive(Debug, PartialEq, Eq)]
pub struct Area {
    /// Its octets.
    pub octets: Vec<u8>,
    /// Whether reading stopped at its limit, so that there may be more.
    pub cut: bool,
}

/// The area that a source has, its first octet at place `base`.
pub fn area(source: &Source, base: u64) -> Result<Area, Failure> {
    match source {
        Source::Words(words) => text_area(&words.join(" "), base, |wrong| {
            format!("{}{}", wrong.words, file_hint(words))
        }),
        Source::Text(place) => text_area(&text(place)?, base, |wrong| {
            format!("{place}, line {}: {}", wrong.line, wrong.words)
        }),
        Source::Binary(place) => {
            let octets = place.octets(LONGEST_BINARY)?;
            let cut = octets.len() == LONGEST_BINARY;
            Ok(Area { octets, cut })
        }
    }
}

/// The area that a text in hex says, or what is told of a text that is wrong.
fn text_area(text: &str, base: u64, told: impl FnOnce(Wrong) -> String) -> Result<Area, Failure> {
    let octets = octets::read(text, base).map_err(|wrong| Failure::Usage(told(wrong)))?;
    let cut = false;
    Ok(Area { octets, cut })
}

/// What to say of wrong words where one of them is the name of a file.
fn file_hint(words: &[String]) -> &'static str {
    if words.iter().any(|word| Path::new(word).is_file()) {
        "; a file is named behind --file or --binary"
    } else {
        ""
    }
}

/// The text of a place.
fn text(place: &Place) -> Result<String, Failure> {
    let octets = place.octets(LONGEST_TEXT + 1)?;
    if octets.len() > LONGEST_TEXT {
        return Err(Failure::Input(format!(
            "{place} has over 16 MiB of text and was not read further; \
             an area has at most 65,535 octets"
        )));
    }
    let octets = octets
        .strip_prefix(BYTE_ORDER_MARK)
        .unwrap_or(&octets)
        .to_vec();
    String::from_utf8(octets).map_err(|_| {
        Failure::usage(format!(
            "{place} is no text in UTF-8; a file's octets themselves are read by --binary"
        ))
    })
}

/// The octets of a reader, as far as so many.
fn read_up_to(reader: impl Read, most: usize) -> io::Result<Vec<u8>> {
    let mut octets = Vec::new();
    reader.take(most as u64).read_to_end(&mut octets)?;
    Ok(octets)
}

#[cfg(test)]
mod tests {
    use super::*;

    #[test]
    fn a_dash_is_standard_input() {
        assert_eq!(Place::of("-"), Place::StandardInput);
        assert_eq!(Place::of("./-"), Place::File("./-".into()));
    }

    #[test]
    fn reading_stops_at_the_limit() {
        assert_eq!(read_up_to(io::repeat(7), 3).unwrap(), [7, 7, 7]);
        assert_eq!(read_up_to(&[1, 2][..], 3).unwrap(), [1, 2]);
    }

    #[test]
    fn words_are_one_text() {
        let words = ["12 03".into(), "00:00".into(), String::new(), "0A".into()];
        let read = area(&Source::Words(words.into()), 0).unwrap();
        assert_eq!(read.octets, [0x12, 0x03, 0x00, 0x00, 0x0A]);
        assert!(!read.cut);
    }
}
