//! Enums whose cases have document 01's numbers and names.

use core::error::Error;
use core::fmt;

/// Says that a number is not that of any label, shape or registry.
///
/// ```
/// use wakkemosut::Shape;
///
/// let unknown = Shape::try_from(9u64).unwrap_err();
/// assert_eq!(unknown.to_string(), "no shape has the number 9");
/// ```
#[derive(Clone, Copy, Debug, PartialEq, Eq, Hash)]
pub struct UnknownNumber {
    /// What was asked for, in one word.
    pub(crate) kind: &'static str,
    /// The number that it was asked for by.
    pub(crate) number: u64,
}

impl fmt::Display for UnknownNumber {
    fn fmt(&self, out: &mut fmt::Formatter<'_>) -> fmt::Result {
        let Self { kind, number } = self;
        write!(out, "no {kind} has the number {number}")
    }
}

impl Error for UnknownNumber {}

/// An enum with a number and a name for each case, the way from the one to the other, and the word
/// for what it is an enum of.
macro_rules! numbered {
    ($(#[$about:meta])* $listed:ident, a $kind:literal {
        $($(#[$about_case:meta])* $case:ident = $number:literal, $name:literal;)*
    }) => {
        $(#[$about])*
        #[derive(Clone, Copy, Debug, PartialEq, Eq, PartialOrd, Ord, Hash)]
        #[non_exhaustive]
        #[repr(u8)]
        pub enum $listed {
            $($(#[$about_case])* $case = $number,)*
        }

        impl $listed {
            /// All cases, in the order of their numbers.
            pub const ALL: &'static [Self] = &[$(Self::$case),*];

            /// Its number in document 01.
            #[must_use]
            pub const fn number(self) -> u64 {
                self as u64
            }

            /// Its name, which is what it is shown as too.
            #[must_use]
            pub const fn name(self) -> &'static str {
                match self {
                    $(Self::$case => $name,)*
                }
            }

            /// The case with this number, if there is one.
            #[must_use]
            pub const fn of(number: u64) -> Option<Self> {
                match number {
                    $($number => Some(Self::$case),)*
                    _ => None,
                }
            }
        }

        impl core::fmt::Display for $listed {
            fn fmt(&self, out: &mut core::fmt::Formatter<'_>) -> core::fmt::Result {
                out.pad(self.name())
            }
        }

        impl TryFrom<u64> for $listed {
            type Error = $crate::UnknownNumber;

            fn try_from(number: u64) -> Result<Self, Self::Error> {
                let unknown = $crate::UnknownNumber { kind: $kind, number };
                Self::of(number).ok_or(unknown)
            }
        }

        impl TryFrom<u8> for $listed {
            type Error = $crate::UnknownNumber;

            fn try_from(number: u8) -> Result<Self, Self::Error> {
                Self::try_from(u64::from(number))
            }
        }
    };
}

pub(crate) use numbered;
