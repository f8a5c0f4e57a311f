//! What calls give back.

use core::error::Error;
use core::fmt;

use crate::ffi::Numbers;

/// What a walk or a push gives when it is done.
#[derive(Clone, Copy, Debug, PartialEq, Eq, Hash)]
pub struct Laid {
    /// The octets that complete entries cover.
    pub covered: u64,
    /// The records written.
    pub written: u64,
    /// The records needed, as many as were written.
    pub needed: u64,
}

/// Why a call was refused: the answers of document 01 but 0, which is `Ok`. Whatever was lent is
/// then as it was before the call. Later answers may come.
#[derive(Clone, Copy, Debug, PartialEq, Eq, Hash)]
#[non_exhaustive]
#[repr(u8)]
pub enum Refusal {
    /// The registry is not 0 to 5. Through this crate no call is refused so, since a
    /// [`Registry`](crate::Registry) is none of those.
    NoRegistry = 1,
    /// The area has over 65,535 octets.
    AreaTooLong = 2,
    /// Base and area length add up to over 4,294,967,295.
    BaseTooHigh = 3,
    /// What was lent is no tape of the layout asked for: it has under 4 words, its header is not
    /// one, or it says that more records are used than there is room for.
    NoTape = 4,
    /// There is less free room than the records need.
    NoRoom {
        /// The records that the call needs.
        needed: u64,
    } = 5,
    /// There is no record at this position; or the mark is past the count.
    PastCount = 6,
    /// A record before the mark ends after it.
    CutsContainer = 7,
    /// The words at this position are no record: their label, shape or registry has no meaning, or
    /// they start after they end.
    NoRecord = 8,
    /// The name is longer than the lent octets.
    NameTooLong = 9,
}

impl Refusal {
    /// Its number in document 01.
    ///
    /// ```
    /// use wakkemosut::Refusal;
    ///
    /// assert_eq!(Refusal::NoRoom { needed: 7 }.number(), 5);
    /// ```
    #[must_use]
    pub const fn number(self) -> u64 {
        match self {
            Self::NoRegistry => 1,
            Self::AreaTooLong => 2,
            Self::BaseTooHigh => 3,
            Self::NoTape => 4,
            Self::NoRoom { .. } => 5,
            Self::PastCount => 6,
            Self::CutsContainer => 7,
            Self::NoRecord => 8,
            Self::NameTooLong => 9,
        }
    }
}

impl fmt::Display for Refusal {
    fn fmt(&self, out: &mut fmt::Formatter<'_>) -> fmt::Result {
        let text = match self {
            Self::NoRegistry => "the registry is not 0 to 5",
            Self::AreaTooLong => "the area has over 65,535 octets",
            Self::BaseTooHigh => "base + area length is over 4,294,967,295",
            Self::NoTape => "the lent words are no tape",
            Self::NoRoom { needed } => return write!(out, "no room for {needed} records"),
            Self::PastCount => "past the count of records",
            Self::CutsContainer => "a record before the mark ends after it",
            Self::NoRecord => "the words are no record",
            Self::NameTooLong => "the name is longer than the lent octets",
        };
        out.write_str(text)
    }
}

impl Error for Refusal {}

impl Numbers {
    /// The numbers of a call that was done, or why it was not.
    pub(crate) fn done(self) -> Result<Self, Refusal> {
        match self.answer {
            0 => Ok(self),
            _ => Err(self.refusal()),
        }
    }

    /// Why a call was refused.
    #[cold]
    fn refusal(self) -> Refusal {
        match self.answer {
            1 => Refusal::NoRegistry,
            2 => Refusal::AreaTooLong,
            3 => Refusal::BaseTooHigh,
            4 => Refusal::NoTape,
            5 => Refusal::NoRoom {
                needed: self.needed,
            },
            6 => Refusal::PastCount,
            7 => Refusal::CutsContainer,
            8 => Refusal::NoRecord,
            9 => Refusal::NameTooLong,
            other => unreachable!("no call refuses with {other}"),
        }
    }
}
