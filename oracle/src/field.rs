//! Stands in for the `field` module of the original's crate
//! `packet_dissector_core`, which is not in docs/src.

use std::io::{self, Write};
use std::ops::Range;

/// A function that writes a value as text.
pub type FormatFn = fn(&FieldValue<'_>, &FormatContext<'_>, &mut dyn Write) -> io::Result<()>;

/// A function that finds a name for a value.
pub type DisplayFn = fn(&FieldValue<'_>, &[Field<'_>]) -> Option<&'static str>;

/// What a format function may look at besides the value.
#[derive(Clone, Debug)]
pub struct FormatContext<'pkt> {
    /// The octets of the whole packet.
    pub packet: &'pkt [u8],
}

/// The declared type of a field.
#[derive(Clone, Copy, Debug, PartialEq, Eq)]
pub enum FieldType {
    U8,
    U16,
    U32,
    U64,
    Ipv4Addr,
    Ipv6Addr,
    Bytes,
    Array,
    Object,
}

/// The value of a field; a container holds the positions of its descendants.
#[derive(Clone, Debug, PartialEq, Eq)]
pub enum FieldValue<'pkt> {
    U8(u8),
    U16(u16),
    U32(u32),
    U64(u64),
    Ipv4Addr([u8; 4]),
    Ipv6Addr([u8; 16]),
    Bytes(&'pkt [u8]),
    Array(Range<u32>),
    Object(Range<u32>),
}

/// The schema of a field.
#[derive(Clone, Copy, Debug)]
pub struct FieldDescriptor {
    /// The name in the output.
    pub name: &'static str,
    /// The name for people.
    pub display_name: &'static str,
    /// The declared type.
    pub field_type: FieldType,
    /// Whether the field may be absent.
    pub optional: bool,
    /// The fields inside a container.
    pub children: Option<&'static [FieldDescriptor]>,
    /// How the value is named.
    pub display_fn: Option<DisplayFn>,
    /// How the value is written.
    pub format_fn: Option<FormatFn>,
}

impl FieldDescriptor {
    /// A field that is always present and has neither children nor functions.
    pub const fn new(
        name: &'static str,
        display_name: &'static str,
        field_type: FieldType,
    ) -> Self {
        Self {
            name,
            display_name,
            field_type,
            optional: false,
            children: None,
            display_fn: None,
            format_fn: None,
        }
    }

    /// The same field, allowed to be absent.
    pub const fn optional(mut self) -> Self {
        self.optional = true;
        self
    }

    /// The same field with these children.
    pub const fn with_children(mut self, children: &'static [FieldDescriptor]) -> Self {
        self.children = Some(children);
        self
    }

    /// The same field, named by this function.
    pub const fn with_display_fn(mut self, display_fn: DisplayFn) -> Self {
        self.display_fn = Some(display_fn);
        self
    }

    /// The same field, written by this function.
    pub const fn with_format_fn(mut self, format_fn: FormatFn) -> Self {
        self.format_fn = Some(format_fn);
        self
    }
}

/// One field of a packet.
#[derive(Clone, Debug)]
pub struct Field<'pkt> {
    /// The schema of the field.
    pub descriptor: &'static FieldDescriptor,
    /// What was read.
    pub value: FieldValue<'pkt>,
    /// Where it stands in the packet.
    pub range: Range<usize>,
}

impl Field<'_> {
    /// The name of the field's schema.
    pub fn name(&self) -> &'static str {
        self.descriptor.name
    }
}
