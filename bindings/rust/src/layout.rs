//! The two layouts of a tape.

use core::fmt::Debug;

use crate::ffi::Calls;

/// How records lie on a [`Tape`](crate::Tape): [`Usual`] or [`Slim`], and no other. It is a part of
/// the tape's type, so that no call has to find it out.
pub trait Layout: Calls + Copy + Debug + Send + Sync + 'static {
    /// The words of a record.
    const RECORD_WORDS: usize;
}

/// Records of six words, as document 01 has them: the layout of a [`Tape`](crate::Tape) of which
/// nothing else is said.
#[derive(Clone, Copy, Debug, PartialEq, Eq, Hash)]
pub struct Usual;

/// Records of four words, which take two thirds of the memory: first octet and end share a word,
/// the end in its upper half, and so do first child and the end of the children.
///
/// All calls give what they give in the usual layout; a tape of one layout is refused with
/// [`Refusal::NoTape`](crate::Refusal::NoTape) by the calls of the other, but for a clear.
///
/// ```
/// use wakkemosut::{Position, Refusal, Registry, Tape};
///
/// let mut words = [0; Tape::slim_words_for(5)];
/// let mut tape = Tape::slim_cleared(&mut words)?;
/// tape.push(Registry::Neighbor, 100, &[0x12, 0x03, 0x00, 0x00, 0x0A])?;
/// let metric = tape.read(Position(4))?;
/// assert_eq!((metric.octets, metric.number), (102..105, 10));
///
/// assert_eq!(words[4 + 4 * 4..], [15 + 256 * 2, 102 + (105 << 32), 10, 0]);
/// let refused = Tape::over(&mut words).read(Position(4)).err();
/// assert_eq!(refused, Some(Refusal::NoTape));
/// # Ok::<(), Refusal>(())
/// ```
#[derive(Clone, Copy, Debug, PartialEq, Eq, Hash)]
pub struct Slim;

impl Layout for Usual {
    const RECORD_WORDS: usize = 6;
}

impl Layout for Slim {
    const RECORD_WORDS: usize = 4;
}
