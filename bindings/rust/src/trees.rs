//! Going over records beside each other.

use core::fmt;
use core::iter::FusedIterator;

use crate::answer::Refusal;
use crate::layout::{Layout, Usual};
use crate::record::{Position, Record};
use crate::tape::Tape;

/// Records beside each other, a row: those at the top of a tape, or the children of a container.
///
/// A record that cannot be read comes as its refusal, and ends the row. No record that the library
/// wrote does so. On words from elsewhere too each record stands later on the tape than the one
/// before and all that is inside it, so that every row ends.
#[derive(Clone)]
#[must_use = "records are read as they are asked for"]
pub struct Trees<'tape, L: Layout = Usual> {
    tape: &'tape Tape<'tape, L>,
    next: Position,
    end: Position,
}

impl<'tape, L: Layout> Trees<'tape, L> {
    /// Those between two positions of a tape.
    pub(crate) fn between(tape: &'tape Tape<'tape, L>, next: Position, end: Position) -> Self {
        Self { tape, next, end }
    }
}

impl<'tape, L: Layout> Iterator for Trees<'tape, L> {
    type Item = Result<Record<'tape, L>, Refusal>;

    fn next(&mut self) -> Option<Self::Item> {
        if self.next >= self.end {
            return None;
        }
        let reading = Record::read(self.tape, self.next, self.end);
        self.next = match &reading {
            Ok(record) => record.past(),
            Err(_) => self.end,
        };
        Some(reading)
    }
}

impl<L: Layout> FusedIterator for Trees<'_, L> {}

impl<L: Layout> fmt::Debug for Trees<'_, L> {
    fn fmt(&self, out: &mut fmt::Formatter<'_>) -> fmt::Result {
        let mut trees = out.debug_struct("Trees");
        trees.field("next", &self.next).field("end", &self.end);
        trees.finish_non_exhaustive()
    }
}
