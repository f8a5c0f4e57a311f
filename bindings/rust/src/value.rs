//! Values of records.

use core::net::{Ipv4Addr, Ipv6Addr};

use crate::record::Shape;

/// The value of a record, as [`Record::value_in`](crate::Record::value_in) gives it. Later kinds
/// may come.
#[derive(Clone, Copy, Debug, PartialEq, Eq, Hash)]
#[non_exhaustive]
pub enum Value<'area> {
    /// A number, or a single bit. Bandwidths are the bits of an IEEE single.
    Number(u64),
    /// An IPv4 address.
    Ipv4(Ipv4Addr),
    /// An IPv6 address, or an SRv6 SID.
    Ipv6(Ipv6Addr),
    /// Octets of the area.
    Bytes(&'area [u8]),
    /// No value of its own: an array or an object, whose children have theirs.
    Container,
}

impl<'area> Value<'area> {
    /// The value that a shape, a number and octets make; nothing for an address that is not as long
    /// as one.
    pub(crate) fn new(shape: Shape, number: u64, octets: &'area [u8]) -> Option<Self> {
        Some(match shape {
            Shape::U8 | Shape::U16 | Shape::U32 | Shape::U64 => Self::Number(number),
            Shape::Ipv4 => Self::Ipv4(<[u8; 4]>::try_from(octets).ok()?.into()),
            Shape::Ipv6 => Self::Ipv6(<[u8; 16]>::try_from(octets).ok()?.into()),
            Shape::Bytes => Self::Bytes(octets),
            Shape::Array | Shape::Object => Self::Container,
        })
    }
}
