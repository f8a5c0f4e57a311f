//! The numbers that document 01 gives the field names.

use crate::field::{Field, FieldDescriptor};
use crate::sub_tlv::SUB_TLVS_DESCRIPTOR;

/// The position of `sub_tlvs` in the schema of a sub-TLV object.
const SUB_TLVS: usize = 4;

/// Labels outside the schema of a sub-TLV object: container, name, label.
const LABELS_BELOW: [(&str, &str, u8); 10] = [
    ("sub_tlvs", "sub_tlv", 47),
    ("ranges", "range", 48),
    ("range", "range_size", 49),
    ("range", "sid", 50),
    ("msds", "msd", 51),
    ("msd", "msd_type", 52),
    ("msd", "msd_value", 53),
    ("unreserved_bandwidth", "bandwidth", 54),
    ("tags", "tag", 55),
    ("algorithms", "algorithm", 56),
];

/// The schema of a sub-TLV object.
pub(crate) fn sub_tlv_fields() -> &'static [FieldDescriptor] {
    SUB_TLVS_DESCRIPTOR.children.expect("sub_tlvs has a schema")
}

/// The schema of a nested sub-TLV object.
pub(crate) fn sub_sub_tlv_fields() -> &'static [FieldDescriptor] {
    sub_tlv_fields()[SUB_TLVS]
        .children
        .expect("the nested sub_tlvs has a schema")
}

/// The label of a field that stands directly in this container, or in none.
pub(crate) fn label(field: &Field<'_>, container: Option<&Field<'_>>) -> u8 {
    let below = container.and_then(|container| label_below(field.name(), container.name()));
    below.unwrap_or_else(|| schema_label(field.name(), container))
}

/// The label of a name outside the schema of a sub-TLV object.
fn label_below(name: &str, container: &str) -> Option<u8> {
    let found = LABELS_BELOW
        .iter()
        .find(|entry| (entry.0, entry.1) == (container, name))?;
    Some(found.2)
}

/// The position of a name in the schema of the sub-TLV object around it.
fn schema_label(name: &str, container: Option<&Field<'_>>) -> u8 {
    let position = schema(container)
        .and_then(|fields| fields.iter().position(|field| field.name == name))
        .unwrap_or_else(|| panic!("no schema has a place for {name}"));
    u8::try_from(position).expect("a label fits an octet")
}

/// The schema of a container that is a sub-TLV object, or is absent.
fn schema(container: Option<&Field<'_>>) -> Option<&'static [FieldDescriptor]> {
    match container {
        None => Some(sub_tlv_fields()),
        Some(object) if object.name() == "sub_tlv" => object.descriptor.children,
        Some(_) => None,
    }
}

#[cfg(test)]
mod tests {
    use super::*;
    use std::collections::HashSet;

    #[test]
    fn each_schema_has_47_names_of_its_own() {
        for schema in [sub_tlv_fields(), sub_sub_tlv_fields()] {
            let names: HashSet<_> = schema.iter().map(|field| field.name).collect();
            assert_eq!(schema.len(), 47);
            assert_eq!(names.len(), 47);
        }
    }

    #[test]
    fn the_two_schemas_are_not_the_same_place() {
        assert!(!std::ptr::eq(sub_tlv_fields(), sub_sub_tlv_fields()));
    }

    #[test]
    fn document_01_names_two_field_numbers() {
        assert_eq!(sub_tlv_fields()[0].name, "type");
        assert_eq!(sub_tlv_fields()[SUB_TLVS].name, "sub_tlvs");
    }
}
