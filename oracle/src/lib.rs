//! The Rust module `sub_tlv.rs` of docs/src, built unchanged, and what it
//! gives in the numbers of document 01.

#![forbid(unsafe_code)]

extern crate self as packet_dissector_core;

mod areas;
pub mod batch;
pub mod bench;
mod cases;
mod dump;
pub mod field;
mod hex;
mod inputs;
pub mod judge;
mod labels;
mod names;
pub mod packet;
mod records;
mod registry;
mod replay;
pub mod util;

/// The module of docs/src.
#[allow(dead_code)]
#[rustfmt::skip]
#[path = "../../docs/src/crates/packet-dissector-isis/src/sub_tlv.rs"]
mod sub_tlv;

pub use areas::{Area, areas};
pub use cases::{cases, is_read, least_length};
pub use dump::{dump, dumped};
pub use hex::hex;
pub use inputs::dump_inputs;
pub use names::{listing, name};
pub use records::{Push, Record, push};
pub use registry::LAST_REGISTRY;
pub use replay::{lies, replay};

use std::io::{self, Write};

use field::{FieldValue, FormatContext};

/// Clears the bits of `prefix` after the first `bits`, by the module's own function.
pub fn mask_prefix(prefix: &mut [u8], bits: usize) {
    sub_tlv::mask_prefix(prefix, bits);
}

/// Writes an identifier as hex octets with dots between; stands in for a
/// function of the original that is not in docs/src.
fn format_isis_id(
    value: &FieldValue<'_>,
    _context: &FormatContext<'_>,
    out: &mut dyn Write,
) -> io::Result<()> {
    let FieldValue::Bytes(octets) = value else {
        return out.write_all(b"null");
    };
    write!(out, "\"{}\"", hex(octets, "."))
}
