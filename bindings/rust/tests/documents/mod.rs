//! What the Rust module and document 01 say of labels, shapes and registries, read out of their
//! texts.

/// The Rust module, from which the names of the fields are taken.
const SOURCE: &str =
    include_str!("../../../../docs/src/crates/packet-dissector-isis/src/sub_tlv.rs");

/// Document 01.
const DOCUMENT: &str = include_str!("../../../../docs/01-scope.md");

/// Names with their numbers.
type Named = Vec<(String, u64)>;

/// The text after one mark and before the next other one.
pub fn between<'text>(text: &'text str, before: &str, after: &str) -> &'text str {
    let (_, rest) = text.split_once(before).expect(before);
    let (found, _) = rest.split_once(after).expect(after);
    found
}

/// A name such as `Srv6Sid` with a text between its words: `Srv6-Sid`.
pub fn joined(name: &str, by: &str) -> String {
    let mut joined = String::new();
    for letter in name.chars() {
        if letter.is_uppercase() && !joined.is_empty() {
            joined += by;
        }
        joined.push(letter);
    }
    joined
}

/// All labels: the fields of the Rust module, then document 01's own, with `_` between words.
pub fn labels() -> Named {
    let fields = field_names().into_iter().zip(0..);
    let own = listed("(0 `type`, 4 `sub_tlvs`); ").into_iter();
    let own = own.map(|(name, number)| (name.replace(' ', "_"), number));
    let labels: Named = fields.chain(own).collect();
    assert_eq!(labels.len(), 57);
    labels
}

/// The shapes of document 01.
pub fn shapes() -> Named {
    let shapes = listed("Shapes: ");
    assert_eq!(shapes.len(), 9);
    shapes
}

/// The registries of document 01.
pub fn registries() -> Named {
    let registries = listed("## The registries\n\n");
    assert_eq!(registries.len(), 6);
    registries
}

/// The names of the fields of a sub-TLV object, in the order of the schema.
fn field_names() -> Vec<String> {
    let raw = between(SOURCE, "const RAW_DESCRIPTOR: FieldDescriptor =", ";");
    let sub_tlvs = between(SOURCE, "static SUB_TLV_FIELDS: ", ".optional()");
    let schema = between(SOURCE, "const fn sub_tlv_fields(", "\n}\n")
        .replace(" RAW_DESCRIPTOR,", raw)
        .replace(" sub_tlvs,", sub_tlvs);
    let fields = schema.split("FieldDescriptor::new(").skip(1);
    fields
        .map(|field| between(field, "\"", "\"").into())
        .collect()
}

/// The list of document 01 that stands behind a text, such as `0 this, 1 that`.
fn listed(behind: &str) -> Named {
    let items = between(DOCUMENT, behind, ". ").split(", ");
    let items = items.map(|item| item.split_once(' ').expect(item));
    items
        .map(|(number, name)| (name.into(), number.parse().expect(number)))
        .collect()
}
