//! Going over all records of a tape.

use core::fmt;
use core::iter::FusedIterator;
use core::ops::Range;

use crate::answer::Refusal;
use crate::layout::{Layout, Usual};
use crate::record::{Position, Record};
use crate::tape::Tape;

/// All records of a tape in the order of their positions: a container comes before what is inside
/// it.
///
/// A record that cannot be read comes as its refusal, and the next ones still come. No record that
/// the library wrote does so.
#[derive(Clone)]
#[must_use = "records are read as they are asked for"]
pub struct Records<'tape, L: Layout = Usual> {
    tape: &'tape Tape<'tape, L>,
    positions: Range<usize>,
}

impl<'tape, L: Layout> Records<'tape, L> {
    /// Those of a tape.
    pub(crate) fn of(tape: &'tape Tape<'tape, L>) -> Self {
        Self {
            tape,
            positions: 0..tape.len(),
        }
    }

    /// The record at a position.
    fn read(&self, at: usize) -> Result<Record<'tape, L>, Refusal> {
        self.tape.read(Position(at as u64))
    }
}

impl<'tape, L: Layout> Iterator for Records<'tape, L> {
    type Item = Result<Record<'tape, L>, Refusal>;

    fn next(&mut self) -> Option<Self::Item> {
        self.positions.next().map(|at| self.read(at))
    }

    fn size_hint(&self) -> (usize, Option<usize>) {
        self.positions.size_hint()
    }
}

impl<L: Layout> DoubleEndedIterator for Records<'_, L> {
    fn next_back(&mut self) -> Option<Self::Item> {
        self.positions.next_back().map(|at| self.read(at))
    }
}

impl<L: Layout> ExactSizeIterator for Records<'_, L> {}

impl<L: Layout> FusedIterator for Records<'_, L> {}

impl<L: Layout> fmt::Debug for Records<'_, L> {
    fn fmt(&self, out: &mut fmt::Formatter<'_>) -> fmt::Result {
        let mut records = out.debug_struct("Records");
        records.field("positions", &self.positions);
        records.finish_non_exhaustive()
    }
}
