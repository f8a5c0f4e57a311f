//! Records of a tape.

use core::fmt;
use core::ops::Range;

use crate::answer::Refusal;
use crate::ffi;
use crate::label::Label;
use crate::layout::{Layout, Usual};
use crate::numbered::numbered;
use crate::registry::Registry;
use crate::tape::Tape;
use crate::trees::Trees;
use crate::value::Value;

/// The place of a record on its tape, counted in records from 0. Places of octets are plain
/// numbers, so that neither can be handed in for the other.
#[derive(Clone, Copy, Debug, PartialEq, Eq, PartialOrd, Ord, Hash)]
pub struct Position(pub u64);

numbered! {
    /// What kind of value a record has. Later ones may come.
    Shape, a "shape" {
        /// A number of 8 bits, or a single bit.
        U8 = 0, "U8";
        /// A number of 16 bits.
        U16 = 1, "U16";
        /// A number of up to 32 bits.
        U32 = 2, "U32";
        /// A number of 64 bits.
        U64 = 3, "U64";
        /// An IPv4 address: the four octets in the record's range.
        Ipv4 = 4, "IPv4";
        /// An IPv6 address: the sixteen octets in the record's range.
        Ipv6 = 5, "IPv6";
        /// The octets in the record's range.
        Bytes = 6, "Bytes";
        /// A container of records of one kind.
        Array = 7, "Array";
        /// A container of fields.
        Object = 8, "Object";
    }
}

/// One record of a tape. What it shows is the same in both layouts, and records are equal where
/// they show the same at the same position.
///
/// It looks at its tape for its children. So the compiler refuses to clear the tape, to cut it back
/// or to push onto it while a record of it is still in use, and no record can show what a later
/// push wrote in its place:
///
/// ```compile_fail,E0502
/// use wakkemosut::{Position, Registry, Tape};
///
/// let mut words = [0; Tape::words_for(10)];
/// let mut tape = Tape::cleared(&mut words)?;
/// tape.push(Registry::Binding, 100, &[1, 3, 0, 0, 7])?;
/// let tuesday = tape.read(Position(0))?;
/// tape.clear()?;
/// assert_eq!(tuesday.children().count(), 1);
/// # Ok::<(), wakkemosut::Refusal>(())
/// ```
#[derive(Clone)]
pub struct Record<'tape, L: Layout = Usual> {
    /// Where it stands on the tape.
    pub position: Position,
    /// Which field it is.
    pub label: Label,
    /// What kind of value it has.
    pub shape: Shape,
    /// The registry of the walk that wrote it.
    pub registry: Registry,
    /// Its first octet and the one past its last, base added.
    pub octets: Range<u64>,
    /// Its number; 0 where the shape carries none.
    pub number: u64,
    /// A container's first child and the position past its last descendant; 0 to 0 for a leaf.
    /// They are what the words say, which on words from elsewhere may be anything;
    /// [`children`](Self::children) keeps to what is inside the container.
    pub descendants: Range<Position>,
    /// The tape that it stands on.
    tape: &'tape Tape<'tape, L>,
    /// The end of the row that it is of, and of all that is inside it.
    row_end: Position,
}

impl<'tape, L: Layout> Record<'tape, L> {
    /// The record at a position of a tape, in a row that ends there.
    pub(crate) fn read(
        tape: &'tape Tape<'tape, L>,
        at: Position,
        row_end: Position,
    ) -> Result<Self, Refusal> {
        let (words, numbers) = ffi::read::<L>(tape.words(), at.0);
        numbers.done()?;
        let [kind, start, end, number, first_child, descendants_end] = words;
        Ok(Self {
            position: at,
            label: Label::of(kind & 0xFF).expect("a record that is read has a label"),
            shape: Shape::of(kind >> 8 & 0xFF).expect("a record that is read has a shape"),
            registry: Registry::of(kind >> 16).expect("a record that is read has a registry"),
            octets: start..end,
            number,
            descendants: Position(first_child)..Position(descendants_end),
            tape,
            row_end,
        })
    }

    /// The six words that it is on a tape of the usual layout.
    #[must_use]
    pub const fn words(&self) -> [u64; 6] {
        let kind = self.label.number() + (self.shape.number() << 8);
        [
            kind + (self.registry.number() << 16),
            self.octets.start,
            self.octets.end,
            self.number,
            self.descendants.start.0,
            self.descendants.end.0,
        ]
    }

    /// Whether it is an array or an object.
    #[must_use]
    pub const fn is_container(&self) -> bool {
        matches!(self.shape, Shape::Array | Shape::Object)
    }

    /// The children of a container, without what is inside them. A leaf has none.
    ///
    /// They stand behind the container and end where it does, and not after the row that it was
    /// reached through: the container around it, or the tape. So whatever the words are, going down
    /// from children to their children ends, and meets no record twice. On words from elsewhere it
    /// can go down as deep as there are records; where the tape [nests](Tape::nests), at most four
    /// containers deep.
    pub fn children(&self) -> Trees<'tape, L> {
        let Range { start, end } = self.descendants;
        let first = start.max(self.next());
        if self.is_container() {
            Trees::between(self.tape, first, end.min(self.row_end))
        } else {
            Trees::between(self.tape, first, first)
        }
    }

    /// The position past the record and all that is inside it.
    pub(crate) fn past(&self) -> Position {
        if self.is_container() {
            self.next().max(self.descendants.end)
        } else {
            self.next()
        }
    }

    /// The position behind the record.
    fn next(&self) -> Position {
        Position(self.position.0.saturating_add(1))
    }

    /// The octets of the record, out of the area that was walked at this base; nothing where it is
    /// not of that area.
    ///
    /// ```
    /// use wakkemosut::{Position, Registry, Tape};
    ///
    /// let area = [6, 4, 192, 0, 2, 1];
    /// let mut words = [0; Tape::words_for(5)];
    /// let mut tape = Tape::cleared(&mut words)?;
    /// tape.push(Registry::Neighbor, 100, &area)?;
    /// let address = tape.read(Position(4))?;
    /// assert_eq!(address.octets_in(&area, 100), Some(&[192, 0, 2, 1][..]));
    /// assert_eq!(address.octets_in(&area, 99), None);
    /// # Ok::<(), wakkemosut::Refusal>(())
    /// ```
    #[must_use]
    pub fn octets_in<'area>(&self, area: &'area [u8], base: u64) -> Option<&'area [u8]> {
        let start = usize::try_from(self.octets.start.checked_sub(base)?).ok()?;
        let end = usize::try_from(self.octets.end.checked_sub(base)?).ok()?;
        area.get(start..end)
    }

    /// The value of the record, out of the area that was walked at this base; nothing where it is
    /// not of that area, or is an address but not as long as one.
    ///
    /// ```
    /// use wakkemosut::{Position, Registry, Tape, Value};
    ///
    /// let area = [6, 4, 192, 0, 2, 1];
    /// let mut words = [0; Tape::words_for(5)];
    /// let mut tape = Tape::cleared(&mut words)?;
    /// tape.push(Registry::Neighbor, 100, &area)?;
    /// let address = tape.read(Position(4))?.value_in(&area, 100);
    /// assert_eq!(address, Some(Value::Ipv4([192, 0, 2, 1].into())));
    /// # Ok::<(), wakkemosut::Refusal>(())
    /// ```
    #[must_use]
    pub fn value_in<'area>(&self, area: &'area [u8], base: u64) -> Option<Value<'area>> {
        Value::new(self.shape, self.number, self.octets_in(area, base)?)
    }
}

impl<L: Layout, Other: Layout> PartialEq<Record<'_, Other>> for Record<'_, L> {
    fn eq(&self, other: &Record<'_, Other>) -> bool {
        self.position == other.position && self.words() == other.words()
    }
}

impl<L: Layout> Eq for Record<'_, L> {}

impl<L: Layout> fmt::Debug for Record<'_, L> {
    fn fmt(&self, out: &mut fmt::Formatter<'_>) -> fmt::Result {
        let mut record = out.debug_struct("Record");
        record.field("position", &self.position);
        record.field("label", &self.label);
        record.field("shape", &self.shape);
        record.field("registry", &self.registry);
        record.field("octets", &self.octets);
        record.field("number", &self.number);
        record.field("descendants", &self.descendants);
        record.finish_non_exhaustive()
    }
}
