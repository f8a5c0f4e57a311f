//! Labels and shapes: the cases of the proved library's enums, their numbers by its contracts and the
//! numbers of the definitions against the Rust and document 01.

/// The labels of the proved library.
const LABELS: &str = include_str!("../../crates/tape/src/label.rt");

/// The shapes of the proved library.
const SHAPES: &str = include_str!("../../crates/tape/src/shape.rt");

/// The numbers of both, as their contracts have them.
const CODES: &str = include_str!("../../crates/tape/specs/Code.antt");

/// The labels of the definitions.
const LABEL_DEFINITIONS: &str = include_str!("../../crates/meaning/specs/Label.antt");

/// The shapes of the definitions.
const SHAPE_DEFINITIONS: &str = include_str!("../../crates/meaning/specs/Shape.antt");

/// The Rust module, from which the names of the fields are taken.
const SOURCE: &str = include_str!("../../docs/src/crates/packet-dissector-isis/src/sub_tlv.rs");

/// The names of labels 47 to 56.
const NAMES_FROM_47: [&str; 10] = [
    "SUB_TLV",
    "RANGE",
    "RANGE_SIZE",
    "RANGE_SID",
    "MSD",
    "MSD_TYPE",
    "MSD_VALUE",
    "BANDWIDTH_ELEMENT",
    "TAG",
    "ALGORITHM_ELEMENT",
];

/// The names of shapes 0 to 8.
const SHAPE_NAMES: [&str; 9] = [
    "U8", "U16", "U32", "U64", "IPV4", "IPV6", "BYTES", "ARRAY", "OBJECT",
];

/// The text after one mark and before the next other one.
fn between<'a>(text: &'a str, before: &str, after: &str) -> &'a str {
    let (_, rest) = text.split_once(before).expect(before);
    let (found, _) = rest.split_once(after).expect(after);
    found
}

/// The names of the fields of a sub-TLV object, in upper case and in the order of the schema.
fn field_names() -> Vec<String> {
    let schema = between(SOURCE, "const fn sub_tlv_fields(", "\n}\n")
        .replace(" RAW_DESCRIPTOR,", " FieldDescriptor::new(\"raw\"")
        .replace(" sub_tlvs,", " FieldDescriptor::new(\"sub_tlvs\"");
    let fields = schema.split("FieldDescriptor::new(").skip(1);
    fields
        .map(|field| between(field, "\"", "\"").to_uppercase())
        .collect()
}

/// The name and the number of a line such as `const NAME: u8 = 1;`.
fn constant(line: &str, before: &str) -> (String, u64) {
    let name = between(line, before, ": ");
    let number = between(line, " = ", ";");
    (name.into(), number.parse().expect(line))
}

/// The cases of an enum of the proved library, in the order of its text.
fn cases<'a>(text: &'a str, of: &str) -> Vec<&'a str> {
    let body = between(text, &format!("\npub enum {of} {{\n"), "\n}\n");
    let cases = body.lines().map(|line| line.trim().strip_suffix(','));
    cases.map(|case| case.expect(of)).collect()
}

/// The names and the numbers of the lines such as `function name = 1`, in the order of the text; a name that
/// is a word of the language stands between marks.
fn equations(text: &str, function: &str) -> Vec<(String, u64)> {
    let before = format!("{function} ");
    let lines = text.lines().filter_map(|line| line.strip_prefix(&before));
    let equations = lines.map(|line| line.split_once(" = ").expect(line));
    equations
        .map(|(name, number)| {
            let name = name.trim_matches(['«', '»']);
            (name.into(), number.parse().expect(number))
        })
        .collect()
}

/// A name such as `TE_ROUTER_ID` as the proved library writes it, `TeRouterId`.
fn camel_case(name: &str) -> String {
    let words = name.split('_');
    let words = words.map(|word| word[..1].to_string() + &word[1..].to_lowercase());
    words.collect()
}

/// A name such as `TE_ROUTER_ID` as the definitions write it, `te_router_id`.
fn snake_case(name: &str) -> String {
    name.to_lowercase()
}

/// Names with their places, counted from 0.
fn numbered<Name: Into<String>>(names: impl IntoIterator<Item = Name>) -> Vec<(String, u64)> {
    names.into_iter().map(Into::into).zip(0..).collect()
}

/// The names of all labels, in upper case and in the order of their numbers.
fn label_names() -> Vec<String> {
    let names = field_names().into_iter();
    names.chain(NAMES_FROM_47.map(String::from)).collect()
}

#[test]
fn the_labels_are_those_of_the_rust_and_of_document_01() {
    let expected = numbered(label_names().iter().map(|name| camel_case(name)));
    assert_eq!(expected.len(), 57);
    assert_eq!(numbered(cases(LABELS, "Label")), expected);
    assert_eq!(equations(CODES, "label_code"), expected);
}

#[test]
fn the_labels_of_the_definitions_are_those_of_the_rust_and_of_document_01() {
    let expected = numbered(label_names().iter().map(|name| snake_case(name)));
    assert_eq!(expected.len(), 57);
    assert_eq!(equations(LABEL_DEFINITIONS, "number"), expected);
}

#[test]
fn the_shapes_are_those_of_document_01() {
    let expected = numbered(SHAPE_NAMES.map(camel_case));
    assert_eq!(numbered(cases(SHAPES, "Shape")), expected);
    assert_eq!(equations(CODES, "shape_code"), expected);
}

#[test]
fn the_shapes_of_the_definitions_are_those_of_document_01() {
    let expected = numbered(SHAPE_NAMES.map(snake_case));
    let (leaves, containers) = expected.split_at(7);
    assert_eq!(equations(SHAPE_DEFINITIONS, "shape_number"), leaves);
    assert_eq!(equations(SHAPE_DEFINITIONS, "container_number"), containers);
}

#[test]
fn names_of_the_definitions_are_in_snake_case() {
    assert_eq!(snake_case("TYPE"), "type");
    assert_eq!(snake_case("IPV4_TE_ROUTER_ID"), "ipv4_te_router_id");
}

#[test]
fn names_of_the_library_are_in_camel_case() {
    assert_eq!(camel_case("TYPE"), "Type");
    assert_eq!(camel_case("IPV4_TE_ROUTER_ID"), "Ipv4TeRouterId");
}

#[test]
fn the_rust_gives_its_fields_the_same_numbers() {
    let expected = numbered(field_names());
    let lines = SOURCE.lines().filter(|line| line.starts_with("const F_"));
    let numbers: Vec<_> = lines.map(|line| constant(line, "const F_")).collect();
    assert_eq!(numbers.len(), 45);
    assert!(numbers.iter().all(|number| expected.contains(number)));
    assert_eq!(expected[0].0, "TYPE");
    assert_eq!(expected[4].0, "SUB_TLVS");
}
