//! What the module pushes, as the records of document 01.

use std::ops::Range;

use crate::field::{Field, FieldValue};
use crate::labels::{label, sub_sub_tlv_fields};
use crate::packet::DissectBuffer;
use crate::registry::{context, of_nested_walk};
use crate::sub_tlv::push_sub_tlvs;

/// One record, in the numbers of document 01.
#[derive(Clone, Copy, Debug, PartialEq, Eq)]
pub struct Record {
    /// Which field it is.
    pub label: u8,
    /// What kind of value it holds.
    pub shape: u8,
    /// The registry of the walk that wrote it.
    pub registry: u8,
    /// The first octet, base included.
    pub first: u64,
    /// One past the last octet, base included.
    pub past_last: u64,
    /// The number; 0 where the shape carries none.
    pub number: u64,
    /// The position of a container's first child; 0 for a leaf.
    pub first_child: u64,
    /// One past a container's last descendant; 0 for a leaf.
    pub past_children: u64,
}

/// What a push gives.
#[derive(Clone, Debug, PartialEq, Eq)]
pub struct Push {
    /// The octets that complete entries cover.
    pub covered: u64,
    /// The records in their order.
    pub records: Vec<Record>,
}

/// Pushes an area into an empty buffer; the registry must be 0 to 5.
pub fn push(registry: u8, base: u32, area: &[u8]) -> Push {
    let buffer = pushed(registry, base, area);
    let records = translate(registry, buffer.fields());
    let covered = match records.first() {
        Some(array) => array.past_last - u64::from(base),
        None => 0,
    };
    Push { covered, records }
}

/// The buffer after a push of the area alone.
pub(crate) fn pushed(registry: u8, base: u32, area: &[u8]) -> DissectBuffer<'_> {
    let mut buffer = DissectBuffer::new();
    push_sub_tlvs(&mut buffer, area, base as usize, context(registry));
    buffer
}

/// The records for the fields of a push in this registry.
fn translate(registry: u8, fields: &[Field<'_>]) -> Vec<Record> {
    let containers = find_containers(fields);
    let nested = find_nested(fields, &containers);
    let mut records = Vec::with_capacity(fields.len());
    for (position, field) in fields.iter().enumerate() {
        let container = containers[position].map(|at| &fields[at]);
        let writer = if nested[position] {
            of_nested_walk(registry)
        } else {
            registry
        };
        records.push(record(field, container, writer));
    }
    records
}

/// The record for a field in this container, written by a walk in this registry.
fn record(field: &Field<'_>, container: Option<&Field<'_>>, registry: u8) -> Record {
    let children = descendants(&field.value);
    Record {
        label: label(field, container),
        shape: shape(&field.value),
        registry,
        first: field.range.start as u64,
        past_last: field.range.end as u64,
        number: number(&field.value),
        first_child: u64::from(children.start),
        past_children: u64::from(children.end),
    }
}

/// For each field the position of the container directly around it.
fn find_containers(fields: &[Field<'_>]) -> Vec<Option<usize>> {
    let mut containers = vec![None; fields.len()];
    for (position, field) in fields.iter().enumerate() {
        for inside in descendants(&field.value) {
            containers[inside as usize] = Some(position);
        }
    }
    containers
}

/// For each field whether the walk of a nested registry wrote it.
fn find_nested(fields: &[Field<'_>], containers: &[Option<usize>]) -> Vec<bool> {
    let mut nested: Vec<bool> = Vec::with_capacity(fields.len());
    for (field, container) in fields.iter().zip(containers) {
        let inherited = container.is_some_and(|position| nested[position]);
        nested.push(inherited || is_nested_array(field) || is_nested_raw(field));
    }
    nested
}

/// Whether a field is the array of a nested walk.
fn is_nested_array(field: &Field<'_>) -> bool {
    let schema = field.descriptor.children;
    field.name() == "sub_tlvs"
        && schema.is_some_and(|fields| std::ptr::eq(fields, sub_sub_tlv_fields()))
}

/// Whether a field is the remainder that a nested push leaves.
fn is_nested_raw(field: &Field<'_>) -> bool {
    let schema = sub_sub_tlv_fields();
    field.name() == "raw" && schema.iter().any(|one| std::ptr::eq(one, field.descriptor))
}

/// The number of a value's shape.
fn shape(value: &FieldValue<'_>) -> u8 {
    match value {
        FieldValue::U8(_) => 0,
        FieldValue::U16(_) => 1,
        FieldValue::U32(_) => 2,
        FieldValue::U64(_) => 3,
        FieldValue::Ipv4Addr(_) => 4,
        FieldValue::Ipv6Addr(_) => 5,
        FieldValue::Bytes(_) => 6,
        FieldValue::Array(_) => 7,
        FieldValue::Object(_) => 8,
    }
}

/// The number that a value carries; 0 where it carries none.
fn number(value: &FieldValue<'_>) -> u64 {
    match value {
        FieldValue::U8(number) => u64::from(*number),
        FieldValue::U16(number) => u64::from(*number),
        FieldValue::U32(number) => u64::from(*number),
        FieldValue::U64(number) => *number,
        _ => 0,
    }
}

/// The positions of a container's descendants; 0 to 0 for a leaf.
fn descendants(value: &FieldValue<'_>) -> Range<u32> {
    match value {
        FieldValue::Array(inside) | FieldValue::Object(inside) => inside.clone(),
        _ => 0..0,
    }
}
