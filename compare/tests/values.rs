//! Values of every type, of every length: the proved library against the oracle.

use compare::agree::Call;
use compare::areas::{self, Row, entry, octets, rows};
use compare::cases::Comparison;

/// The number of random values of each row and length.
const VALUES: usize = 250;

/// The number of random values that have the form of their row.
const FORMED_VALUES: usize = 1_500;

/// Compares a value alone, between two entries of its own registry, and cut off by one octet.
fn compare_value(comparison: &mut Comparison, row: Row, value: &[u8]) {
    let alone = entry(row.t, value);
    let before = entry(row.t, &octets(&mut comparison.random, row.least));
    let after = entry(0, &octets(&mut comparison.random, 2));
    comparison.every_room(row.registry, &alone);
    comparison.every_room(row.registry, &[&before[..], &alone, &after].concat());
    comparison.every_room(row.registry, &alone[..alone.len() - 1]);
}

/// Compares values of the least length of a row, of one octet less, of one and of three more.
fn compare_row(comparison: &mut Comparison, row: Row) {
    for length in row.lengths() {
        for _ in 0..VALUES {
            let value = octets(&mut comparison.random, length);
            compare_value(comparison, row, &value);
        }
    }
}

#[test]
fn values_around_every_least_length_are_those_of_the_rust() {
    for mut comparison in Comparison::in_each_layout() {
        for row in rows() {
            compare_row(&mut comparison, *row);
        }
        let tally = comparison.tally;
        tally.assert_calls(850_000);
        tally.assert_answers(Call::Push, &[0, 5], 180_000);
        tally.assert_answers(Call::Walk, &[0, 5], 180_000);
    }
}

/// Compares values that have the form of their row.
fn compare_formed(comparison: &mut Comparison, row: Row) {
    for _ in 0..FORMED_VALUES {
        let value = areas::value(&mut comparison.random, row);
        compare_value(comparison, row, &value);
    }
}

#[test]
fn values_of_the_form_of_their_row_are_those_of_the_rust() {
    for mut comparison in Comparison::in_each_layout() {
        for row in rows() {
            compare_formed(&mut comparison, *row);
        }
        let tally = comparison.tally;
        tally.assert_calls(1_300_000);
        tally.assert_answers(Call::Push, &[0, 5], 280_000);
        tally.assert_answers(Call::Walk, &[0, 5], 280_000);
    }
}

/// Compares values of every length for one type.
fn compare_every_length(comparison: &mut Comparison, registry: u8, t: u8) {
    for length in 0..=u8::MAX {
        let value = octets(&mut comparison.random, length.into());
        comparison.exact_room(registry, &entry(t, &value));
    }
}

#[test]
fn values_of_every_type_and_length_are_those_of_the_rust() {
    for mut comparison in Comparison::in_each_layout() {
        for registry in 0..=oracle::LAST_REGISTRY {
            for t in 0..=u8::MAX {
                compare_every_length(&mut comparison, registry, t);
            }
        }
        let tally = comparison.tally;
        tally.assert_calls(2 * 6 * 256 * 256);
        tally.assert_answers(Call::Push, &[0], 6 * 256 * 256);
        tally.assert_answers(Call::Walk, &[0], 6 * 256 * 256);
    }
}
