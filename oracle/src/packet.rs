//! Stands in for the `packet` module of the original's crate
//! `packet_dissector_core`, which is not in docs/src.

use std::ops::Range;

use crate::field::{Field, FieldDescriptor, FieldValue};

/// The fields of a packet in the order in which they were pushed.
#[derive(Debug, Default)]
pub struct DissectBuffer<'pkt> {
    fields: Vec<Field<'pkt>>,
}

impl<'pkt> DissectBuffer<'pkt> {
    /// A buffer without fields.
    pub fn new() -> Self {
        Self::default()
    }

    /// Takes all fields off; their memory stays for the next ones.
    pub fn clear(&mut self) {
        self.fields.clear();
    }

    /// Appends a field.
    pub fn push_field(
        &mut self,
        descriptor: &'static FieldDescriptor,
        value: FieldValue<'pkt>,
        range: Range<usize>,
    ) {
        self.fields.push(Field {
            descriptor,
            value,
            range,
        });
    }

    /// Appends a container and gives its position; what is pushed until its
    /// end stands inside it.
    pub fn begin_container(
        &mut self,
        descriptor: &'static FieldDescriptor,
        value: FieldValue<'pkt>,
        range: Range<usize>,
    ) -> u32 {
        let position = self.count();
        self.push_field(descriptor, value, range);
        position
    }

    /// Ends the container at this position: all fields after it are inside.
    pub fn end_container(&mut self, position: u32) {
        let inside = position + 1..self.count();
        match self.field_mut(position as usize).map(|f| &mut f.value) {
            Some(FieldValue::Array(children) | FieldValue::Object(children)) => *children = inside,
            _ => panic!("field {position} is not a container"),
        }
    }

    /// The field at this position, to be changed.
    pub fn field_mut(&mut self, position: usize) -> Option<&mut Field<'pkt>> {
        self.fields.get_mut(position)
    }

    /// All fields.
    pub fn fields(&self) -> &[Field<'pkt>] {
        &self.fields
    }

    /// The number of fields.
    fn count(&self) -> u32 {
        u32::try_from(self.fields.len()).expect("a field position fits 32 bits")
    }
}

#[cfg(test)]
mod tests {
    use super::*;
    use crate::field::FieldType;

    static LIST: FieldDescriptor = FieldDescriptor::new("list", "List", FieldType::Array);
    static ITEM: FieldDescriptor = FieldDescriptor::new("item", "Item", FieldType::U8);

    #[test]
    fn a_container_holds_what_was_pushed_until_its_end() {
        let mut buffer = DissectBuffer::new();
        buffer.push_field(&ITEM, FieldValue::U8(1), 0..1);
        let list = buffer.begin_container(&LIST, FieldValue::Array(0..0), 1..3);
        buffer.push_field(&ITEM, FieldValue::U8(2), 1..2);
        buffer.push_field(&ITEM, FieldValue::U8(3), 2..3);
        buffer.end_container(list);
        buffer.push_field(&ITEM, FieldValue::U8(4), 3..4);
        assert_eq!(list, 1);
        assert_eq!(buffer.fields()[1].value, FieldValue::Array(2..4));
        assert_eq!(buffer.fields().len(), 5);
    }
}
