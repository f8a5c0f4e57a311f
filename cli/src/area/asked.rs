//! What the words of the command `area` ask for.

use wakkemosut::Registry;

use crate::decimal::Decimal;
use crate::failure::Failure;
use crate::input::{Place, Source};
use crate::quote::quoted;
use crate::registries;
use crate::words::{self, Words};

/// Which of the words that are no options is the base, counted from 0.
pub const BASE: usize = 1;

/// What is asked for.
#[derive(Debug, PartialEq, Eq)]
pub struct Asked {
    /// The registry of the area.
    pub registry: Which,
    /// The place of its first octet.
    pub base: Decimal,
    /// Where its octets come from.
    pub source: Source,
    /// How it is shown.
    pub form: Form,
}

/// The registry that a word says.
#[derive(Debug, PartialEq, Eq)]
pub enum Which {
    /// One that there is.
    Known(Registry),
    /// A number that no registry has.
    None(Decimal),
}

/// How an area is shown.
#[derive(Debug, PartialEq, Eq)]
pub enum Form {
    /// As a listing for people.
    Listing,
    /// Every record in a line.
    Records,
    /// As a JSON object.
    Json,
}

impl Asked {
    /// What words ask for.
    pub fn of(words: &Words) -> Result<Self, Failure> {
        let mut operands = words.operands.iter().map(String::as_str);
        let registry = registry(operands.next().ok_or_else(|| missing("registry"))?)?;
        let base = base(operands.next().ok_or_else(|| missing("base"))?)?;
        let octets: Vec<&str> = operands.collect();
        Ok(Self {
            registry,
            base,
            source: source(&octets, words)?,
            form: form(words)?,
        })
    }
}

/// The failure of a word that is not there.
fn missing(what: &str) -> Failure {
    Failure::usage(format!(
        "no {what}; write 'wakkemosut area REGISTRY BASE OCTETS..'"
    ))
}

/// The registry that a word says, by number or name.
fn registry(word: &str) -> Result<Which, Failure> {
    match (Decimal::of(word), word.parse()) {
        (_, Ok(registry)) => Ok(Which::Known(registry)),
        (Some(number), Err(_)) => Ok(Which::None(number)),
        (None, Err(_)) => Err(Failure::usage(format!(
            "{} is no registry; they are {}",
            quoted(word),
            registries::listed(&registries::numbered())
        ))),
    }
}

/// The base that a word says.
fn base(word: &str) -> Result<Decimal, Failure> {
    let named = quoted(word);
    Decimal::of(word).ok_or_else(|| {
        Failure::usage(format!(
            "the base {named} is no number in decimal digits; it stands before the octets, \
             such as 100, or 0 if it does not matter"
        ))
    })
}

/// Where octets come from: words, `-` alone, or an option. There is one such place.
fn source(octets: &[&str], words: &Words) -> Result<Source, Failure> {
    let (file, binary) = (words.word_of(words::FILE), words.word_of(words::BINARY));
    match (octets, file, binary) {
        ([], None, None) => {
            let base = quoted(&words.operands[BASE]);
            Err(Failure::usage(format!(
                "no octets behind the base {base}; for an empty area write ''"
            )))
        }
        (["-"], None, None) => Ok(Source::Text(Place::StandardInput)),
        (octets, None, None) if octets.contains(&"-") => Err(Failure::usage(
            "octets come from one place: '-' is standard input, and other octets stand beside it",
        )),
        (octets, None, None) => {
            let octets = octets.iter().copied().map(String::from);
            Ok(Source::Words(octets.collect()))
        }
        ([], Some(file), None) => Ok(Source::Text(Place::of(file))),
        ([], None, Some(file)) => Ok(Source::Binary(Place::of(file))),
        ([], Some(_), Some(_)) => Err(Failure::usage(
            "octets come from one place: --file and --binary do not go together",
        )),
        ([first, ..], file, _) => Err(Failure::usage(format!(
            "octets come from one place: {} stands beside {}",
            quoted(first),
            file.map_or(words::BINARY, |_| words::FILE)
        ))),
    }
}

/// How an area is to be shown.
fn form(words: &Words) -> Result<Form, Failure> {
    match (words.has(words::RECORDS), words.has(words::JSON)) {
        (false, false) => Ok(Form::Listing),
        (true, false) => Ok(Form::Records),
        (false, true) => Ok(Form::Json),
        (true, true) => Err(Failure::usage("--records and --json do not go together")),
    }
}
