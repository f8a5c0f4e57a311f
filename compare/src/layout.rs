//! The two layouts of a tape: document 01's, and the slim one of document 02, request 09.

use std::fmt::{Display, Formatter, Result};

use crate::native::Record;

/// The words of the header.
pub const HEADER: usize = 4;

/// The greatest number that half a word holds; a slim tape has room for no more records.
pub const GREATEST_HALF: u64 = 4_294_967_295;

/// What the number in a word's upper half is multiplied by.
const UPPER: u64 = 4_294_967_296;

/// How the words of a tape are those of its records.
#[derive(Clone, Copy, Debug, PartialEq, Eq)]
pub enum Layout {
    /// Six words to a record, each number in a word of its own.
    Usual,
    /// Four words to a record, the two places in one and the two positions in one.
    Slim,
}

impl Layout {
    /// Both layouts.
    pub const ALL: [Self; 2] = [Self::Usual, Self::Slim];

    /// The layout that this one is not.
    pub fn other(self) -> Self {
        match self {
            Self::Usual => Self::Slim,
            Self::Slim => Self::Usual,
        }
    }

    /// The words of a record.
    pub fn record_words(self) -> usize {
        match self {
            Self::Usual => 6,
            Self::Slim => 4,
        }
    }

    /// The header of a tape with so many used records.
    pub fn header(self, used: u64) -> [u64; HEADER] {
        [used, 4, self.record_words() as u64, 0]
    }

    /// The number of records that so many words have room for.
    pub fn room(self, words: usize) -> usize {
        let room = words.saturating_sub(HEADER) / self.record_words();
        match self {
            Self::Usual => room,
            Self::Slim => room.min(GREATEST_HALF as usize),
        }
    }

    /// The greatest number that a record holds as a place or a position.
    pub fn greatest(self) -> u64 {
        match self {
            Self::Usual => u64::MAX,
            Self::Slim => GREATEST_HALF,
        }
    }

    /// Great numbers that a record holds as places or positions, the greatest last.
    pub fn great(self) -> [u64; 3] {
        match self {
            Self::Usual => [1 << 32, 1 << 63, self.greatest()],
            Self::Slim => [1 << 16, 1 << 31, self.greatest()],
        }
    }

    /// What a record holds of a number as a place or a position.
    pub fn held(self, number: u64) -> u64 {
        number & self.greatest()
    }

    /// The record with what the layout holds of its places and positions.
    pub fn fitted(self, record: Record) -> Record {
        let [kind, start, end, number, first_child, child_end] = record;
        let [start, end] = [start, end].map(|place| self.held(place));
        let [first_child, child_end] = [first_child, child_end].map(|position| self.held(position));
        [kind, start, end, number, first_child, child_end]
    }

    /// The record of these words.
    pub fn record(self, words: &[u64]) -> Record {
        match (self, words) {
            (Self::Usual, &[kind, start, end, number, first_child, child_end]) => {
                [kind, start, end, number, first_child, child_end]
            }
            (Self::Slim, &[kind, places, number, children]) => {
                let [start, end] = apart(places);
                let [first_child, child_end] = apart(children);
                [kind, start, end, number, first_child, child_end]
            }
            _ => panic!("{} words are no {self} record", words.len()),
        }
    }

    /// Writes a record to the words of its place.
    pub fn write(self, record: Record, place: &mut [u64]) {
        let [kind, start, end, number, first_child, child_end] = record;
        match self {
            Self::Usual => place.copy_from_slice(&record),
            Self::Slim => place.copy_from_slice(&[
                kind,
                joined(start, end),
                number,
                joined(first_child, child_end),
            ]),
        }
    }

    /// Writes records, one after another, to the words of their places.
    pub fn write_all(self, records: impl IntoIterator<Item = Record>, places: &mut [u64]) {
        let places = places.chunks_exact_mut(self.record_words());
        for (place, record) in places.zip(records) {
            self.write(record, place);
        }
    }
}

impl Display for Layout {
    fn fmt(&self, out: &mut Formatter<'_>) -> Result {
        out.write_str(match self {
            Self::Usual => "usual",
            Self::Slim => "slim",
        })
    }
}

/// The word with these halves.
fn joined(lower: u64, upper: u64) -> u64 {
    let fit = lower <= GREATEST_HALF && upper <= GREATEST_HALF;
    assert!(fit, "{lower} and {upper} are no halves of a word");
    lower + UPPER * upper
}

/// The halves of a word, the lower one first.
fn apart(word: u64) -> [u64; 2] {
    [word % UPPER, word / UPPER]
}

#[cfg(test)]
mod tests;
