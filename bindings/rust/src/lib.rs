#![doc = include_str!("../README.md")]
//!
//! ## Less memory
//!
//! Where memory is short, a [`Slim`] tape holds the same records in two thirds of the words:
//! [`Tape::slim_cleared`] and [`Tape::slim_words_for`] in the place of `cleared` and `words_for`
//! are all that changes.
//!
//! ## Words
//!
//! - **area**: the octets of the sub-TLVs inside a TLV, one entry behind the other. An entry is an
//!   octet of type, an octet of length, and as many octets of value.
//! - **registry**: what gives the types of an area their meaning: where the area was found, such as
//!   in the TLV of a neighbor. [`Registry`] has all of them.
//! - **base**: the place of the area's first octet in its packet. Records say where their octets
//!   are in the packet, so that base is added to each place.
//! - **tape**: the words that hold the records, lent by the caller. [`Tape`] has the calls.
//! - **record**: one thing that was read, with its label (which field it is), its shape (what kind
//!   of value), its octets and its number: a [`Record`].
//! - **position**: the place of a record on its tape, counted from 0: a [`Position`].
//! - **container**: a record with others inside it, its children: an array or an object.
//! - **covered**: the octets of the complete entries, from the area's first one on. The remainder,
//!   an entry that the end of the area cuts off or a lone last octet, is not covered.
//! - **walk** and **push**: both append the records of the complete entries; a push also one raw
//!   record for the remainder, if there is one.
//!
//! ## What will grow
//!
//! [`Label`], [`Shape`], [`Registry`], [`Refusal`] and [`Value`] may get more cases, so that a
//! match on one of them needs an arm for the rest.
//!
//! ## What is answered, and what cannot be asked
//!
//! No call has a condition that its caller must see to, and none panics: each is done, or refused
//! with a [`Refusal`] that has document 01's number. Words of a tape may come from anywhere: where
//! they are no tape, [`Tape::read`] and the calls that change it are refused, and there are no
//! records to go over; where a record is none, it comes as its refusal; and going down from
//! container to children ends whatever the words are.
//!
//! Some of what document 01 answers cannot be passed by the types here: a registry is a
//! [`Registry`], so that none is refused with 1; a type is an octet, so that [`name`] is never
//! asked for a type over 255; and lent parts that overlap, or pointers that are not good for their
//! length, which a caller in C must see to, safe Rust has not. 10 is the dump program's own and no
//! call's.

#![no_std]
#![deny(unsafe_code)]
#![warn(missing_docs)]

mod answer;
#[allow(unsafe_code)]
mod ffi;
mod label;
mod layout;
mod numbered;
mod record;
mod records;
mod registry;
mod tape;
mod trees;
mod value;

pub use answer::{Laid, Refusal};
pub use label::Label;
pub use layout::{Layout, Slim, Usual};
pub use numbered::UnknownNumber;
pub use record::{Position, Record, Shape};
pub use records::Records;
pub use registry::{LONGEST_NAME, ParseRegistryError, Registry, name};
pub use tape::{LONGEST_AREA, Tape, most_records};
pub use trees::Trees;
pub use value::Value;

/// Clears the bits of a prefix after the first `bits`. A count past the end changes nothing;
/// nothing is refused.
///
/// ```
/// let mut prefix = [0xFF, 0xFF];
/// wakkemosut::mask_prefix(&mut prefix, 13);
/// assert_eq!(prefix, [0xFF, 0xF8]);
/// ```
pub fn mask_prefix(prefix: &mut [u8], bits: usize) {
    ffi::mask(prefix, bits);
}
