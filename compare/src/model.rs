//! The calls on a tape, as the texts of document 01 and, for the slim layout, of document 02 have
//! them.

use crate::layout::{HEADER, Layout};
use crate::native::{Outcome, Record};

/// The greatest number of containers in each other, the outermost counted.
const MOST_DEEP: u64 = 4;

/// What a call that may write gives, and the tape that it leaves.
#[derive(Clone, Debug, PartialEq, Eq)]
pub struct After {
    /// The numbers that it gives back.
    pub outcome: Outcome,
    /// Every word of the tape afterwards.
    pub tape: Vec<u64>,
}

/// A tree of records.
#[derive(Debug)]
struct Tree {
    /// The position of its first record.
    start: u64,
    /// The position past its last record.
    end: u64,
    /// The greatest number of its containers in each other.
    deep: u64,
}

/// What a clear gives and leaves.
pub fn clear(layout: Layout, tape: &[u64]) -> After {
    match tape.get(HEADER..) {
        Some(rest) => After {
            outcome: bare(0),
            tape: [&layout.header(0), rest].concat(),
        },
        None => unchanged(tape, bare(4)),
    }
}

/// What a cut back to a mark gives and leaves.
pub fn cut_back(layout: Layout, tape: &[u64], mark: u64) -> After {
    match cut_answer(layout, tape, mark) {
        0 => After {
            outcome: bare(0),
            tape: [&[mark], &tape[1..]].concat(),
        },
        answer => unchanged(tape, bare(answer)),
    }
}

/// What a read of one position gives.
pub fn read(layout: Layout, tape: &[u64], at: u64) -> (Record, Outcome) {
    match sound_record(layout, tape, at) {
        Ok(record) => (record, bare(0)),
        Err(answer) => ([0; 6], bare(answer)),
    }
}

/// What the nest test says.
pub fn nest_test(layout: Layout, tape: &[u64]) -> bool {
    let trees = used_records(layout, tape).and_then(trees);
    trees.is_some_and(|trees| trees.iter().all(|tree| tree.deep <= MOST_DEEP))
}

/// An answer, with 0 in the other numbers.
pub fn bare(answer: u64) -> Outcome {
    Outcome {
        answer,
        covered: 0,
        written: 0,
        needed: 0,
    }
}

/// What a call gives that leaves the tape as it was.
pub fn unchanged(tape: &[u64], outcome: Outcome) -> After {
    After {
        outcome,
        tape: tape.to_vec(),
    }
}

/// The used records; nothing where answer 4 is due.
pub fn used_records(
    layout: Layout,
    tape: &[u64],
) -> Option<impl DoubleEndedIterator<Item = Record> + ExactSizeIterator> {
    let (header, rest) = tape.split_first_chunk::<HEADER>()?;
    let used = index(header[0])?;
    if *header != layout.header(header[0]) || used > layout.room(tape.len()) {
        return None;
    }
    let places = rest.chunks_exact(layout.record_words()).take(used);
    Some(places.map(move |words| layout.record(words)))
}

/// A 64-bit number as an index, if it can be one.
fn index(number: u64) -> Option<usize> {
    usize::try_from(number).ok()
}

/// The answer to a cut back.
fn cut_answer(layout: Layout, tape: &[u64], mark: u64) -> u64 {
    let Some(records) = used_records(layout, tape) else {
        return 4;
    };
    match index(mark).filter(|count| *count <= records.len()) {
        None => 6,
        Some(kept) if records.take(kept).any(|record| record[5] > mark) => 7,
        Some(_) => 0,
    }
}

/// The record at a position, or why a read of it is refused.
fn sound_record(layout: Layout, tape: &[u64], at: u64) -> Result<Record, u64> {
    let mut records = used_records(layout, tape).ok_or(4_u64)?;
    let found = index(at).and_then(|at| records.nth(at));
    let record = found.ok_or(6_u64)?;
    if is_sound(record) { Ok(record) } else { Err(8) }
}

/// Whether a read gives this record.
fn is_sound(record: Record) -> bool {
    let [kind, start, end, ..] = record;
    let [label, shape, ..] = kind.to_le_bytes();
    label <= 56 && shape <= 8 && kind < 393_216 && start <= end
}

/// The trees that the records split into, the last tree first; nothing where
/// they do not split. They grow from the last record to the first.
fn trees(
    records: impl DoubleEndedIterator<Item = Record> + ExactSizeIterator,
) -> Option<Vec<Tree>> {
    let mut grown = Vec::new();
    for (position, record) in records.enumerate().rev() {
        let tree = tree(position as u64, record, &mut grown)?;
        grown.push(tree);
    }
    Some(grown)
}

/// The tree that starts with this record. It takes its children from the
/// trees after it.
fn tree(start: u64, record: Record, after: &mut Vec<Tree>) -> Option<Tree> {
    let [kind, _, _, _, first_child, end] = record;
    let next = start + 1;
    match kind.to_le_bytes()[1] {
        7 | 8 if first_child == next => container(start, end, after),
        7 | 8 => None,
        _ if (first_child, end) == (0, 0) => Some(Tree {
            start,
            end: next,
            deep: 0,
        }),
        _ => None,
    }
}

/// The container from `start` to `end`. Its children are the trees that start
/// before its end, and the last of them must end with it.
fn container(start: u64, end: u64, after: &mut Vec<Tree>) -> Option<Tree> {
    let children = after.split_off(after.partition_point(|tree| tree.start >= end));
    let reached = children.first().map_or(start + 1, |last| last.end);
    let deepest = children.iter().map(|child| child.deep).max();
    (reached == end).then_some(Tree {
        start,
        end,
        deep: 1 + deepest.unwrap_or(0),
    })
}

#[cfg(test)]
mod tests;
