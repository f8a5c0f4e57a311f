//! Why there is no answer, and how this is told.

use std::io;

use wakkemosut::Refusal;

use crate::help;

/// Why there is no answer.
#[derive(Debug)]
pub enum Failure {
    /// There were no words at all.
    NoWords,
    /// A word is wrong, or one is missing: which, and what was expected.
    Usage(String),
    /// An input cannot be read: which, and why.
    Input(String),
    /// The library refuses: why, and the figures that matter.
    Refused(Refusal, String),
    /// The answer cannot be written.
    Output(io::Error),
}

impl Failure {
    /// A wrong or missing word.
    pub fn usage(words: impl Into<String>) -> Self {
        Self::Usage(words.into())
    }

    /// The status that the command ends with.
    pub fn status(&self) -> u8 {
        match self {
            Self::Refused(..) | Self::Output(_) => 1,
            Self::NoWords | Self::Usage(_) | Self::Input(_) => 2,
        }
    }

    /// What is written to standard error.
    pub fn text(&self) -> String {
        match self {
            Self::NoWords => help::usage(),
            Self::Usage(words) => format!("wakkemosut: {words}\n{}\n", help::POINTER),
            Self::Input(words) => format!("wakkemosut: {words}\n"),
            Self::Refused(refusal, figures) => {
                let number = refusal.number();
                format!("wakkemosut: refused with {number}: {refusal}{figures}\n")
            }
            Self::Output(error) => format!("wakkemosut: the answer cannot be written: {error}\n"),
        }
    }
}

/// A refusal without figures of its own.
impl From<Refusal> for Failure {
    fn from(refusal: Refusal) -> Self {
        Self::Refused(refusal, String::new())
    }
}
