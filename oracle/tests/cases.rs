//! The cases for the prover: the stored file, and what the areas reach.

mod table;

use std::collections::HashSet;

use oracle::{Area, LAST_REGISTRY, areas, cases, is_read, least_length};
use table::ROWS;

/// The stored cases.
const STORED: &str = include_str!("../../crates/meaning/specs/Examples/RustCases.antt");

/// The rows with an array or ranges: registry, type, least value length.
const ARRAY_ROWS: [(u8, u8, usize); 7] = [
    (0, 11, 32),
    (1, 1, 4),
    (1, 2, 8),
    (2, 2, 1),
    (2, 22, 1),
    (2, 19, 0),
    (2, 23, 0),
];

/// The octets with flags: registry, type, least value length, place.
const FLAGS: [(u8, u8, usize, usize); 14] = [
    (0, 31, 5, 0),
    (0, 32, 11, 0),
    (0, 33, 4, 0),
    (0, 36, 4, 0),
    (0, 34, 8, 0),
    (0, 43, 21, 0),
    (0, 44, 27, 6),
    (1, 3, 5, 0),
    (3, 3, 5, 0),
    (1, 4, 1, 0),
    (1, 5, 19, 0),
    (2, 2, 1, 0),
    (2, 22, 1, 0),
    (2, 25, 2, 0),
];

/// A complete entry of an area: registry, type, value.
type Entry = (u8, u8, Vec<u8>);

/// A text with every run of white space as one space.
fn unspaced(text: &str) -> String {
    text.split_whitespace().collect::<Vec<_>>().join(" ")
}

/// The complete entries of an area.
fn entries_of(area: &Area) -> Vec<Entry> {
    let mut entries = Vec::new();
    let mut rest = &area.octets[..];
    while let [t, length, after @ ..] = rest {
        let Some((value, next)) = after.split_at_checked(usize::from(*length)) else {
            break;
        };
        entries.push((area.registry, *t, value.to_vec()));
        rest = next;
    }
    entries
}

/// The complete entries of all areas.
fn all_entries() -> Vec<Entry> {
    areas().iter().flat_map(entries_of).collect()
}

/// The values of a type that have this length.
fn values(registry: u8, t: u8, length: usize) -> Vec<Vec<u8>> {
    let entries = all_entries().into_iter();
    let found = entries.filter(|(r, u, value)| (*r, *u, value.len()) == (registry, t, length));
    found.map(|(_, _, value)| value).collect()
}

/// Asserts that a value of this length is among the entries.
fn assert_has(registry: u8, t: u8, length: usize) {
    let found = values(registry, t, length);
    assert!(!found.is_empty(), "registry {registry}, type {t}, {length}");
}

/// The octets at a place of a type's values of at least this length.
fn octets_at(registry: u8, t: u8, least: usize, place: usize) -> Vec<u8> {
    let entries = all_entries().into_iter();
    let found = entries.filter(|(r, u, value)| (*r, *u) == (registry, t) && value.len() >= least);
    found.map(|(_, _, value)| value[place]).collect()
}

#[test]
fn the_stored_file_holds_what_is_printed() {
    let is_same = unspaced(STORED) == unspaced(&cases());
    assert!(is_same, "RustCases.antt is not what `oracle cases` prints");
}

#[test]
fn every_row_has_values_around_its_least_length() {
    for (registry, t, least) in ROWS {
        assert_has(registry, t, least);
        assert_has(registry, t, least + 1);
        if let Some(shorter) = least.checked_sub(1) {
            assert_has(registry, t, shorter);
        }
    }
}

#[test]
fn every_array_row_has_values_three_octets_longer() {
    for (registry, t, least) in ARRAY_ROWS {
        assert!(ROWS.contains(&(registry, t, least)));
        assert_has(registry, t, least + 3);
    }
}

#[test]
fn every_row_has_a_value_of_different_octets() {
    for (registry, t, least) in ROWS {
        let differ = |value: &Vec<u8>| value.iter().collect::<HashSet<_>>().len() == least;
        let found = values(registry, t, least).iter().any(differ);
        assert!(found, "registry {registry}, type {t}, {least}");
    }
}

#[test]
fn all_flags_are_set_once_and_clear_once() {
    for (registry, t, least, place) in FLAGS {
        assert!(ROWS.contains(&(registry, t, least)));
        let octets = octets_at(registry, t, least, place);
        let ever = octets.iter().fold(0x00, |bits, octet| bits | octet);
        let always = octets.iter().fold(0xFF, |bits, octet| bits & octet);
        assert_eq!((ever, always), (0xFF, 0x00), "{registry}, {t}");
    }
}

#[test]
fn no_area_stands_twice() {
    let areas = areas();
    for (place, area) in areas.iter().enumerate() {
        assert!(!areas[..place].contains(area), "{area:?}");
    }
}

#[test]
fn a_value_of_the_greatest_length_is_there() {
    let longest = all_entries().iter().map(|entry| entry.2.len()).max();
    assert_eq!(longest, Some(255));
}

#[test]
fn every_registry_has_an_empty_value_of_a_type_that_it_does_not_read() {
    for registry in 0..=LAST_REGISTRY {
        let is_row = |t: u8| ROWS.iter().any(|row| (row.0, row.1) == (registry, t));
        let is_wanted = |(r, t, value): &Entry| *r == registry && value.is_empty() && !is_row(*t);
        assert!(all_entries().iter().any(is_wanted), "{registry}");
    }
}

#[test]
fn every_registry_has_entries_with_a_remainder() {
    for registry in 0..=LAST_REGISTRY {
        let is_wanted = |area: &Area| {
            let lengths = entries_of(area).into_iter().map(|one| 2 + one.2.len());
            area.registry == registry && (1..area.octets.len()).contains(&lengths.sum())
        };
        assert!(areas().iter().any(is_wanted), "{registry}");
    }
}

#[test]
fn a_type_is_read_from_its_least_length_on() {
    for registry in 0..=LAST_REGISTRY {
        for t in 0..=u8::MAX {
            let Some(least) = least_length(registry, t) else {
                continue;
            };
            assert!((least..=u8::MAX).all(|length| is_read(registry, t, length)));
        }
    }
}

#[test]
fn the_types_that_are_read_are_the_rows() {
    for registry in 0..=LAST_REGISTRY {
        for t in 0..=u8::MAX {
            let row = ROWS.iter().find(|row| (row.0, row.1) == (registry, t));
            let least = least_length(registry, t).map(usize::from);
            assert_eq!(least, row.map(|row| row.2), "{registry}, {t}");
        }
    }
}
