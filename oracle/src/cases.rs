//! The text of crates/meaning/specs/Examples/RustCases.antt.

use crate::LAST_REGISTRY;
use crate::areas::{Area, areas};
use crate::dump::columns;
use crate::records::{Record, push};

/// The base of every case.
const BASE: u32 = 100;

/// The text before the first case.
const HEAD: &str = "\
-- What the Rust of docs/src shows of values around each row's least length and of the special cases: pushes at base 100 (made by `oracle cases`).
use Rattle.std.specs.Prelude.{List, [], ◌∷◌, ℕ}
use Rattle.meaning.specs.Examples.Example.{printed, Case, push}

-- registry, area, octets covered, records (label, shape, registry, words 1 to 5)
unfoldable pub rust_cases : List Case
rust_cases =
";

/// The text between the cases and the types.
const MIDDLE: &str = "    []

-- of each registry, the types that are read, each with the least length of a value that is
unfoldable pub rust_types : List (List (List ℕ))
rust_types =
";

/// The label of a value that is not read.
const VALUE: u8 = 2;

/// The text of the file: what the module gives for every area, and which types it reads.
pub fn cases() -> String {
    let cases: String = areas().iter().map(case).collect();
    let types: String = (0..=LAST_REGISTRY).map(types).collect();
    format!("{HEAD}{cases}{MIDDLE}{types}    []\n")
}

/// The types that a registry reads.
fn types(registry: u8) -> String {
    let all = (0..=u8::MAX).filter_map(|t| Some((t, least_length(registry, t)?)));
    let elements: String = all
        .map(|(t, least)| format!("({t} ∷ {least} ∷ []) ∷ "))
        .collect();
    let list = if elements.is_empty() {
        "[]".into()
    } else {
        format!("({elements}[])")
    };
    format!("    {list} ∷\n")
}

/// The length of the shortest value of a type that is read.
pub fn least_length(registry: u8, t: u8) -> Option<u8> {
    (0..=u8::MAX).find(|&length| is_read(registry, t, length))
}

/// Whether a value of a type is read: none of the registry's records is a `value`.
pub fn is_read(registry: u8, t: u8, length: u8) -> bool {
    let area = [vec![t, length], vec![0; usize::from(length)]].concat();
    let records = push(registry, BASE, &area).records;
    !records
        .iter()
        .any(|record| (record.label, record.registry) == (VALUE, registry))
}

/// The case of an area.
fn case(area: &Area) -> String {
    let push = push(area.registry, BASE, &area.octets);
    let octets = octets(&area.octets);
    let lines = lines(&push.records);
    format!(
        "    push {} {octets} {} {lines} ∷\n",
        area.registry, push.covered
    )
}

/// A list of octets.
fn octets(octets: &[u8]) -> String {
    if octets.is_empty() {
        return "[]".into();
    }
    let elements: String = octets
        .iter()
        .map(|octet| format!("0x{octet:02X} ∷ "))
        .collect();
    format!("({elements}[])")
}

/// A list of records, a line each.
fn lines(records: &[Record]) -> String {
    if records.is_empty() {
        return "[]".into();
    }
    let elements: String = records
        .iter()
        .map(|record| format!("    printed {} ∷\n", columns(record)))
        .collect();
    format!("(\n{elements}    []\n    )")
}
