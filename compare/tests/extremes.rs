//! Areas of the greatest length: the proved library against the oracle.

use compare::agree::Call;
use compare::areas::{entry, long_entry, long_tail, longest, tail_rows};
use compare::cases::Comparison;
use compare::native::Area;
use compare::shown::{MOST_OCTETS, Shown, bound};

/// Octets of which an area may have nothing else.
const LONE_OCTETS: [u8; 10] = [0x00, 0x01, 0x02, 0x04, 0x0B, 0x13, 0x17, 0x19, 0x80, 0xFF];

/// Compares an area of the greatest length in every room.
fn compare_longest(comparison: &mut Comparison, registry: u8, octets: &[u8]) {
    assert_eq!(octets.len(), MOST_OCTETS);
    comparison.every_room(registry, octets);
}

#[test]
fn entries_of_2_octets_are_those_of_the_rust() {
    for mut comparison in Comparison::in_each_layout() {
        for (registry, t) in [(0, 18), (1, 4), (2, 19), (2, 23), (3, 1), (4, 1), (5, 0)] {
            compare_longest(&mut comparison, registry, &longest(&[t, 0]));
        }
        comparison.tally.assert_calls(56);
    }
}

#[test]
fn entries_at_the_bound_are_those_of_the_rust() {
    let area = longest(&[4, 1, 0xA0]);
    let needed = Shown::of(Area::new(1, 0, &area)).needed_by_push();
    assert_eq!(needed, bound(MOST_OCTETS));
    for mut comparison in Comparison::in_each_layout() {
        compare_longest(&mut comparison, 1, &area);
        comparison.tally.assert_calls(8);
    }
}

#[test]
fn entries_of_257_octets_are_those_of_the_rust() {
    let counting: Vec<u8> = (0..=254).collect();
    for mut comparison in Comparison::in_each_layout() {
        for (registry, t) in [
            (0, 11),
            (1, 1),
            (1, 2),
            (2, 2),
            (2, 19),
            (2, 23),
            (2, 25),
            (5, 0),
        ] {
            compare_longest(&mut comparison, registry, &longest(&entry(t, &counting)));
        }
        comparison.tally.assert_calls(63);
    }
}

#[test]
fn the_longest_remainder_is_that_of_the_rust() {
    let mut area = [vec![0, 0], longest(&entry(0, &[0; 255]))].concat();
    area.truncate(MOST_OCTETS);
    for mut comparison in Comparison::in_each_layout() {
        for registry in 0..=oracle::LAST_REGISTRY {
            let covered = oracle::push(registry, 0, &area).covered;
            assert_eq!(covered, MOST_OCTETS as u64 - 255);
            compare_longest(&mut comparison, registry, &area);
        }
        comparison.tally.assert_calls(48);
    }
}

/// Compares areas of every type that has an area inside, which is this one over and over.
fn compare_inner(comparison: &mut Comparison, inner: &[u8]) {
    for row in tail_rows() {
        let area = longest(&long_tail(row, inner));
        compare_longest(comparison, row.registry, &area);
    }
    let area = longest(&long_entry(25, &[0x80, 0], inner));
    compare_longest(comparison, 2, &area);
}

#[test]
fn areas_inside_are_those_of_the_rust() {
    for mut comparison in Comparison::in_each_layout() {
        for inner in [
            &[1, 0][..],
            &[7, 0],
            &[1, 4, 0xA8, 0x53, 0x1C, 0xE7],
            &[0xFF],
        ] {
            compare_inner(&mut comparison, inner);
        }
        comparison.tally.assert_calls(128);
    }
}

#[test]
fn garbage_is_that_of_the_rust() {
    for mut comparison in Comparison::in_each_layout() {
        for registry in 0..=oracle::LAST_REGISTRY {
            let garbage = comparison.random.octets(MOST_OCTETS);
            compare_longest(&mut comparison, registry, &garbage);
            for octet in LONE_OCTETS {
                compare_longest(&mut comparison, registry, &longest(&[octet]));
            }
        }
        comparison.tally.assert_calls(500);
        comparison.tally.assert_answers(Call::Walk, &[0, 5], 120);
        comparison.tally.assert_answers(Call::Push, &[0, 5], 120);
    }
}
