//! Names: the proved library against the oracle.

use compare::lent::Lent;
use compare::native::{self, Outcome};

/// The Rust module, from which the names are counted.
const SOURCE: &str = include_str!("../../docs/src/crates/packet-dissector-isis/src/sub_tlv.rs");

/// The first octets of two buffers that differ everywhere.
const STARTS: [u8; 2] = [0, 128];

/// Numbers that are no registry.
const NO_REGISTRIES: [u64; 6] = [6, 7, 255, 256, 1 << 32, u64::MAX];

/// Numbers that make a type a number over 255, though its last octet stays.
const OVER_255: [u64; 5] = [1 << 8, 1 << 9, 1 << 16, 1 << 32, 1 << 63];

/// The outcome of a call that was done or refused.
fn outcome(answer: u64, written: u64) -> Outcome {
    Outcome {
        answer,
        covered: 0,
        written,
        needed: 0,
    }
}

/// Asserts the outcome of a call and every octet after it.
fn assert_call(registry: u64, t: u64, length: usize, expected: Outcome, written: &str) {
    for start in STARTS {
        let mut lent = Lent::counting(start, length);
        let mut wanted = lent.clone();
        wanted.middle()[..written.len()].copy_from_slice(written.as_bytes());
        let given = native::name(registry, t, lent.middle());
        let call = format!("registry {registry}, type {t}, {length} octets from {start}");
        assert_eq!(given, expected, "outcome: {call}");
        assert_eq!(lent, wanted, "octets: {call}");
    }
}

/// Asserts what a name gives into lent octets of several lengths.
fn assert_name(registry: u64, t: u64, name: &str) {
    let count = name.len();
    for short in [0, count - 1] {
        assert_call(registry, t, short, outcome(9, 0), "");
    }
    for enough in [count, count + 1, count + 16] {
        assert_call(registry, t, enough, outcome(0, count as u64), name);
    }
}

/// Asserts that a type without a name writes nothing.
fn assert_no_name(registry: u64, t: u64) {
    for length in [0, 1, 16, 64] {
        assert_call(registry, t, length, outcome(0, 0), "");
    }
}

/// All registries and types.
fn all_types() -> impl Iterator<Item = (u8, u8)> {
    (0..=oracle::LAST_REGISTRY).flat_map(|registry| (0..=u8::MAX).map(move |t| (registry, t)))
}

#[test]
fn every_name_is_that_of_the_rust() {
    for (registry, t) in all_types() {
        match oracle::name(registry, t) {
            Some(name) => assert_name(registry.into(), t.into(), name),
            None => assert_no_name(registry.into(), t.into()),
        }
    }
}

#[test]
fn a_number_over_255_has_no_name() {
    for (registry, t) in all_types() {
        for over in OVER_255 {
            assert_no_name(registry.into(), over + u64::from(t));
        }
        assert_no_name(registry.into(), u64::MAX - u64::from(t));
    }
}

#[test]
fn another_registry_is_refused() {
    for registry in NO_REGISTRIES {
        for t in [0, 1, 3, 11, 255, 256, u64::MAX] {
            for length in [0, 1, 64] {
                assert_call(registry, t, length, outcome(1, 0), "");
            }
        }
    }
}

#[test]
fn there_are_as_many_names_as_in_the_source() {
    let in_source = SOURCE
        .lines()
        .filter(|line| line.contains("=> Some(\""))
        .count();
    let in_oracle = all_types().filter(|(registry, t)| oracle::name(*registry, *t).is_some());
    let in_library = all_types().filter(|(registry, t)| {
        native::name((*registry).into(), (*t).into(), &mut [0; 256]).written > 0
    });
    assert!(in_source > 0);
    assert_eq!(in_oracle.count(), in_source);
    assert_eq!(in_library.count(), in_source);
}

#[test]
fn a_null_pointer_of_length_0_lends_nothing() {
    for (registry, t) in all_types() {
        let expected = match oracle::name(registry, t) {
            Some(_) => outcome(9, 0),
            None => outcome(0, 0),
        };
        let given = native::name_into_nothing(registry.into(), t.into());
        assert_eq!(given, expected, "registry {registry}, type {t}");
    }
    assert_eq!(native::name_into_nothing(6, 3), outcome(1, 0));
}
