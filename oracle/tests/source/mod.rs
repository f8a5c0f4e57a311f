//! The names as they stand in the text of the Rust module, read without running it.

/// The text of the module.
const TEXT: &str = include_str!("../../../docs/src/crates/packet-dissector-isis/src/sub_tlv.rs");

/// The functions that name types, by the number of their registry.
const NAME_FUNCTIONS: [&str; 6] = [
    "fn neighbor_sub_tlv_name(",
    "fn prefix_sub_tlv_name(",
    "fn router_capability_sub_tlv_name(",
    "fn binding_sub_tlv_name(",
    "fn srv6_sid_sub_sub_tlv_name(",
    "fn no_name(",
];

/// All names, a line each: registry, type, name.
pub fn listing() -> String {
    let functions = NAME_FUNCTIONS.iter().enumerate();
    let lines = functions.flat_map(|(registry, function)| {
        let entries = body(function).lines().filter_map(entry);
        entries.map(move |(t, name)| format!("{registry} {t} {name}\n"))
    });
    lines.collect()
}

/// The text of a function, up to the brace that ends it.
fn body(function: &str) -> &'static str {
    let start = TEXT.find(function).expect("the module has the function");
    let text = &TEXT[start..];
    let end = text.find("\n}\n").expect("the function ends");
    &text[..end]
}

/// The type and the name of a line as `3 => Some("Administrative group (color)"),`.
fn entry(line: &str) -> Option<(&str, &str)> {
    let (t, rest) = line.trim().split_once(" => Some(\"")?;
    let name = rest.strip_suffix("\"),")?;
    Some((t, name))
}
