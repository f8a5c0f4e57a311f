//! The list of the replay program: the stored file, and what its cases reach.

mod table;

use std::collections::HashSet;

use oracle::{LAST_REGISTRY, Push, Record, lies, push, replay};
use table::ROWS;

/// The stored list.
const STORED: &[u8] = include_bytes!("../../crates/replay/stdin");

/// The label of a value that is not read.
const VALUE: u8 = 2;

/// The label of octets that are left over.
const RAW: u8 = 3;

/// The label of an array of entries.
const SUB_TLVS: u8 = 4;

/// A case of the list.
struct Case {
    registry: u8,
    base: u32,
    area: &'static [u8],
    push: Push,
}

impl Case {
    /// The place past the last octet of the area.
    fn past(&self) -> u64 {
        u64::from(self.base) + self.area.len() as u64
    }

    /// Whether a record of this label and registry is among the case's.
    fn has(&self, label: u8, registry: u8) -> bool {
        let mut records = self.push.records.iter();
        records.any(|one| (one.label, one.registry) == (label, registry))
    }

    /// The type and the value of the area's only entry, if it is one.
    fn entry(&self) -> Option<(u8, &'static [u8])> {
        match self.area {
            [t, length, value @ ..] if usize::from(*length) == value.len() => Some((*t, value)),
            _ => None,
        }
    }
}

/// Takes so many octets off the front of a list as a big-endian number.
fn take(list: &mut &'static [u8], count: usize) -> u64 {
    let octets = take_octets(list, count).iter();
    octets.fold(0, |number, octet| 256 * number + u64::from(*octet))
}

/// Takes octets off the front of a list.
fn take_octets(list: &mut &'static [u8], count: usize) -> &'static [u8] {
    let (taken, rest) = list.split_at(count);
    *list = rest;
    taken
}

/// Takes a record off the front of a list.
fn take_record(list: &mut &'static [u8], base: u32) -> Record {
    Record {
        label: take_octets(list, 1)[0],
        shape: take_octets(list, 1)[0],
        registry: take_octets(list, 1)[0],
        first: u64::from(base) + take(list, 2),
        past_last: u64::from(base) + take(list, 2),
        number: take(list, 8),
        first_child: take(list, 2),
        past_children: take(list, 2),
    }
}

/// Takes a case off the front of a list.
fn take_case(list: &mut &'static [u8]) -> Case {
    let registry = take_octets(list, 1)[0];
    let base = take(list, 4) as u32;
    let [length, covered, count] = [2, 2, 2].map(|octets| take(list, octets));
    let area = take_octets(list, length as usize);
    let records = (0..count).map(|_| take_record(list, base)).collect();
    let push = Push { covered, records };
    Case {
        registry,
        base,
        area,
        push,
    }
}

/// The stored list in two: what the Rust gives, and the false cases after it.
fn halves() -> (&'static [u8], &'static [u8]) {
    STORED.split_at(STORED.len() - lies().len())
}

/// All cases of the stored list but the false ones.
fn all_cases() -> Vec<Case> {
    cases_of(halves().0)
}

/// The cases of a list.
fn cases_of(mut list: &'static [u8]) -> Vec<Case> {
    let mut cases = Vec::new();
    while !list.is_empty() {
        cases.push(take_case(&mut list));
    }
    cases
}

/// Asserts that so many cases at least are as wanted.
fn assert_some(least: usize, what: &str, is_wanted: impl Fn(&Case) -> bool) {
    let count = all_cases().iter().filter(|case| is_wanted(case)).count();
    assert!(count >= least, "{count} with {what}");
}

/// Asserts that an entry of a type with this many octets is there, alone, and whether it is read.
fn assert_entry(registry: u8, t: u8, length: usize, is_read: bool) {
    let what = format!("registry {registry}, type {t}, {length} octets");
    assert_some(1, &what, |case| {
        let entry = case
            .entry()
            .map(|(t, value)| (case.registry, t, value.len()));
        entry == Some((registry, t, length)) && case.has(VALUE, registry) != is_read
    });
}

#[test]
fn the_stored_list_is_what_is_written() {
    let is_same = STORED == replay();
    assert!(
        is_same,
        "crates/replay/stdin is not what `oracle replay` writes"
    );
}

#[test]
fn the_list_has_thousands_of_cases_and_is_not_too_long() {
    let cases = all_cases();
    println!("{} cases in {} octets", cases.len(), STORED.len());
    assert!((5_000..10_000).contains(&cases.len()));
    assert!(STORED.len() < 1_200_000);
    assert!(cases.iter().all(|case| case.area.len() <= 512));
    assert!(cases.iter().all(|case| case.push.records.len() <= 1_000));
}

#[test]
fn the_list_says_what_the_rust_gives() {
    for case in all_cases() {
        assert_eq!(push(case.registry, case.base, case.area), case.push);
    }
}

#[test]
fn the_false_cases_say_something_else() {
    let lies = cases_of(halves().1);
    assert_eq!(lies.len(), 2 + 9 * 19 + 2);
    for case in lies {
        assert_ne!(push(case.registry, case.base, case.area), case.push);
    }
}

#[test]
fn no_area_stands_twice() {
    let mut met = HashSet::new();
    assert!(
        all_cases()
            .iter()
            .all(|case| met.insert((case.registry, case.area)))
    );
}

#[test]
fn every_row_has_values_around_its_least_length_and_long_ones() {
    for (registry, t, least) in ROWS {
        for length in [least, least + 1, least + 3, least + 40, 255] {
            assert_entry(registry, t, length, true);
        }
        if let Some(shorter) = least.checked_sub(1) {
            assert_entry(registry, t, shorter, false);
        }
    }
}

#[test]
fn every_type_of_every_registry_is_there() {
    for registry in 0..=LAST_REGISTRY {
        let cases = all_cases()
            .into_iter()
            .filter(|case| case.registry == registry);
        let types: HashSet<u8> = cases.filter_map(|case| Some(case.entry()?.0)).collect();
        assert_eq!(types.len(), 256, "registry {registry}");
    }
}

#[test]
fn every_registry_has_remainders_and_an_empty_area() {
    for registry in 0..=LAST_REGISTRY {
        assert_some(1, "no octet", |case| {
            case.registry == registry && case.area.is_empty()
        });
        assert_some(100, "a remainder", |case| {
            case.registry == registry && case.push.covered < case.area.len() as u64
        });
    }
}

#[test]
fn areas_stand_inside_areas() {
    for (outer, inner) in [(0, 4), (1, 4), (2, 5)] {
        assert_some(20, "an area inside", |case| {
            case.registry == outer && case.has(SUB_TLVS, inner)
        });
    }
    assert_some(5, "a remainder inside", |case| {
        case.registry == 2 && case.has(RAW, 5)
    });
}

#[test]
fn bases_are_small_and_great() {
    assert_some(500, "base 0", |case| case.base == 0);
    assert_some(500, "base 100", |case| case.base == 100);
    assert_some(500, "the greatest base", |case| {
        case.past() == 4_294_967_295
    });
}

#[test]
fn some_areas_are_long_and_some_pushes_have_many_records() {
    assert_some(1, "512 octets", |case| case.area.len() == 512);
    assert_some(5, "many records", |case| case.push.records.len() > 500);
}
