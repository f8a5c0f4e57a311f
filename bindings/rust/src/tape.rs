//! The tape, and the calls on it.

use core::marker::PhantomData;

use crate::answer::{Laid, Refusal};
use crate::ffi::{self, Numbers};
use crate::layout::{Layout, Slim, Usual};
use crate::record::{Position, Record};
use crate::records::Records;
use crate::registry::Registry;
use crate::trees::Trees;

/// The words of a tape's header.
const HEADER: usize = 4;

/// The most octets of an area.
pub const LONGEST_AREA: usize = 65_535;

/// The most records that an area of so many octets needs: 1 + 7 n / 3, or none where it is empty.
#[must_use]
pub const fn most_records(octets: usize) -> usize {
    match octets {
        0 => 0,
        _ => 1 + octets.saturating_mul(7) / 3,
    }
}

/// A tape: a header and records in words that the caller lends. The words hold all there is of it:
/// a tape over words that another tape left has that one's records.
///
/// Its records lie in a [`Layout`]: the [`Usual`] one, or the [`Slim`] one, which takes two thirds
/// of the memory. The calls are the same and give the same in both. Only how a tape begins has
/// three names: for the usual layout, for the slim one, and for callers that name the layout in the
/// type, as in `Tape::<L>::in_layout`.
///
/// | | usual | slim | named in the type |
/// |---|---|---|---|
/// | the words to lend | [`words_for`] | [`slim_words_for`] | [`words_in_layout`] |
/// | a tape without records | [`cleared`] | [`slim_cleared`] | [`cleared_in_layout`] |
/// | the tape that words are | [`over`] | [`slim_over`] | [`in_layout`] |
///
/// [`words_for`]: Tape::words_for
/// [`slim_words_for`]: Tape::slim_words_for
/// [`words_in_layout`]: Tape::words_in_layout
/// [`cleared`]: Tape::cleared
/// [`slim_cleared`]: Tape::slim_cleared
/// [`cleared_in_layout`]: Tape::cleared_in_layout
/// [`over`]: Tape::over
/// [`slim_over`]: Tape::slim_over
/// [`in_layout`]: Tape::in_layout
#[derive(Debug)]
pub struct Tape<'words, L: Layout = Usual> {
    words: &'words mut [u64],
    layout: PhantomData<L>,
}

/// Tapes of the usual layout.
impl<'words> Tape<'words, Usual> {
    /// The words of a tape with room for so many records.
    #[must_use]
    pub const fn words_for(records: usize) -> usize {
        Self::words_in_layout(records)
    }

    /// A tape without records.
    ///
    /// # Errors
    ///
    /// [`Refusal::NoTape`] for under 4 words.
    pub fn cleared(words: &'words mut [u64]) -> Result<Self, Refusal> {
        Self::cleared_in_layout(words)
    }

    /// The tape that these words are. They may be anything: where they are no tape, it has no
    /// records, and each call that can be refused says so.
    #[must_use]
    pub fn over(words: &'words mut [u64]) -> Self {
        Self::in_layout(words)
    }
}

/// Tapes of the slim layout.
impl<'words> Tape<'words, Slim> {
    /// The words of a slim tape with room for so many records.
    #[must_use]
    pub const fn slim_words_for(records: usize) -> usize {
        Self::words_in_layout(records)
    }

    /// A slim tape without records.
    ///
    /// # Errors
    ///
    /// [`Refusal::NoTape`] for under 4 words.
    pub fn slim_cleared(words: &'words mut [u64]) -> Result<Self, Refusal> {
        Self::cleared_in_layout(words)
    }

    /// The slim tape that these words are. They may be anything: where they are no slim tape, it
    /// has no records, and each call that can be refused says so.
    #[must_use]
    pub fn slim_over(words: &'words mut [u64]) -> Self {
        Self::in_layout(words)
    }
}

impl<'words, L: Layout> Tape<'words, L> {
    /// As [`words_for`](Tape::words_for), in the layout that the type names: for callers that leave
    /// it open.
    ///
    /// ```
    /// use wakkemosut::{Layout, Refusal, Registry, Tape};
    ///
    /// /// The records that an area has, which is to fit a tape with room for ten.
    /// fn records<L: Layout>(area: &[u8]) -> Result<u64, Refusal> {
    ///     let mut words = vec![0; Tape::<L>::words_in_layout(10)];
    ///     let mut tape = Tape::<L>::cleared_in_layout(&mut words)?;
    ///     Ok(tape.push(Registry::Binding, 0, area)?.written)
    /// }
    ///
    /// let area = [1, 3, 0, 0, 7];
    /// assert_eq!(records::<wakkemosut::Usual>(&area), Ok(5));
    /// assert_eq!(records::<wakkemosut::Slim>(&area), Ok(5));
    /// ```
    #[must_use]
    pub const fn words_in_layout(records: usize) -> usize {
        records
            .saturating_mul(L::RECORD_WORDS)
            .saturating_add(HEADER)
    }

    /// As [`cleared`](Tape::cleared), in the layout that the type names.
    ///
    /// # Errors
    ///
    /// [`Refusal::NoTape`] for under 4 words.
    pub fn cleared_in_layout(words: &'words mut [u64]) -> Result<Self, Refusal> {
        let mut tape = Self::in_layout(words);
        tape.clear()?;
        Ok(tape)
    }

    /// As [`over`](Tape::over), in the layout that the type names.
    #[must_use]
    pub fn in_layout(words: &'words mut [u64]) -> Self {
        Self {
            words,
            layout: PhantomData,
        }
    }

    /// Takes all records off. Only the header is written.
    ///
    /// # Errors
    ///
    /// [`Refusal::NoTape`] for under 4 words.
    pub fn clear(&mut self) -> Result<(), Refusal> {
        ffi::clear::<L>(self.words).done().map(|_| ())
    }

    /// Appends the records of an area's complete entries. The area's first octet is at place
    /// `base`.
    ///
    /// # Errors
    ///
    /// [`Refusal::AreaTooLong`], [`Refusal::BaseTooHigh`], [`Refusal::NoTape`] or
    /// [`Refusal::NoRoom`], looked for in this order.
    pub fn walk(&mut self, registry: Registry, base: u64, area: &[u8]) -> Result<Laid, Refusal> {
        laid(ffi::walk::<L>(self.words, registry.number(), base, area))
    }

    /// Appends what the [walk](Self::walk) does, and beside it a [`Raw`](crate::Label::Raw) record
    /// for the octets after the last complete entry, if there are any.
    ///
    /// # Errors
    ///
    /// As of the walk.
    ///
    /// ```
    /// use wakkemosut::{Refusal, Registry, Tape};
    ///
    /// let area = [0x12, 0x03, 0x00, 0x00, 0x0A, 0xFF];
    /// let mut words = [0; Tape::words_for(5)];
    /// let mut tape = Tape::cleared(&mut words)?;
    /// let push = tape.push(Registry::Neighbor, 100, &area);
    /// assert_eq!(push, Err(Refusal::NoRoom { needed: 6 }));
    /// assert_eq!(tape.walk(Registry::Neighbor, 100, &area)?.covered, 5);
    /// # Ok::<(), Refusal>(())
    /// ```
    pub fn push(&mut self, registry: Registry, base: u64, area: &[u8]) -> Result<Laid, Refusal> {
        laid(ffi::push::<L>(self.words, registry.number(), base, area))
    }

    /// The position at which the next record will stand: the count of records. 0 where the words
    /// are no tape.
    #[must_use]
    pub fn mark(&self) -> Position {
        // A read there is refused, on any words; how, tells whether they are a tape.
        match self.read(Position(u64::MAX)) {
            Err(Refusal::NoTape) => Position(0),
            _ => self.used(),
        }
    }

    /// The count of records, as the first word has it.
    fn used(&self) -> Position {
        Position(self.words.first().copied().unwrap_or(0))
    }

    /// The count of records. 0 where the words are no tape.
    ///
    /// ```
    /// use wakkemosut::{Refusal, Registry, Tape};
    ///
    /// let mut words = [7; Tape::words_for(5)];
    /// assert!(Tape::over(&mut words).is_empty());
    /// let mut tape = Tape::cleared(&mut words)?;
    /// tape.push(Registry::Binding, 100, &[1, 3, 0, 0, 7])?;
    /// assert_eq!(tape.len(), 5);
    /// # Ok::<(), Refusal>(())
    /// ```
    #[must_use]
    pub fn len(&self) -> usize {
        self.mark().0 as usize
    }

    /// Whether there are no records.
    #[must_use]
    pub fn is_empty(&self) -> bool {
        self.len() == 0
    }

    /// Takes the records off that were appended since the count was `mark`.
    ///
    /// # Errors
    ///
    /// [`Refusal::NoTape`], [`Refusal::PastCount`] or [`Refusal::CutsContainer`], looked for in
    /// this order.
    ///
    /// ```
    /// use wakkemosut::{Position, Refusal, Registry, Tape};
    ///
    /// let mut words = [0; Tape::words_for(10)];
    /// let mut tape = Tape::cleared(&mut words)?;
    /// tape.push(Registry::Binding, 100, &[1, 3, 0, 0, 7])?;
    /// let mark = tape.mark();
    /// tape.push(Registry::Binding, 100, &[1, 3, 0, 0, 8])?;
    /// tape.cut_back(mark)?;
    /// assert_eq!(tape.mark(), Position(5));
    /// assert_eq!(tape.cut_back(Position(2)), Err(Refusal::CutsContainer));
    /// # Ok::<(), Refusal>(())
    /// ```
    pub fn cut_back(&mut self, mark: Position) -> Result<(), Refusal> {
        ffi::cut_back::<L>(self.words, mark.0).done().map(|_| ())
    }

    /// The record at a position.
    ///
    /// # Errors
    ///
    /// [`Refusal::NoTape`], [`Refusal::PastCount`] or [`Refusal::NoRecord`], looked for in this
    /// order.
    pub fn read(&self, at: Position) -> Result<Record<'_, L>, Refusal> {
        Record::read(self, at, self.used())
    }

    /// All records, in the order of their positions.
    ///
    /// ```
    /// use wakkemosut::{Refusal, Registry, Tape};
    ///
    /// let mut words = [0; Tape::words_for(5)];
    /// let mut tape = Tape::cleared(&mut words)?;
    /// tape.push(Registry::Neighbor, 100, &[0x12, 0x03, 0x00, 0x00, 0x0A])?;
    /// let mut labels = Vec::new();
    /// for record in tape.records() {
    ///     labels.push(record?.label.name());
    /// }
    /// assert_eq!(labels, ["sub_tlvs", "sub_tlv", "type", "length", "te_default_metric"]);
    /// # Ok::<(), Refusal>(())
    /// ```
    pub fn records(&self) -> Records<'_, L> {
        Records::of(self)
    }

    /// Whether the records split into trees, their containers at most 4 deep. They do after any
    /// call on a tape on which they did before, and on a tape that was cleared.
    #[must_use]
    pub fn nests(&self) -> bool {
        ffi::nest_test::<L>(self.words)
    }

    /// The records at the top from a position on: those that a walk or push appended there, and
    /// after them those of later ones, without what is inside them.
    pub fn trees_from(&self, position: Position) -> Trees<'_, L> {
        Trees::between(self, position, self.mark())
    }

    /// All words of the tape.
    #[must_use]
    pub fn words(&self) -> &[u64] {
        self.words
    }
}

/// What a walk or a push gave.
fn laid(numbers: Numbers) -> Result<Laid, Refusal> {
    let Numbers {
        covered,
        written,
        needed,
        ..
    } = numbers.done()?;
    Ok(Laid {
        covered,
        written,
        needed,
    })
}
