//! Damaged copies of areas: the proved library against the oracle.

use compare::agree::Call;
use compare::areas::damage;
use compare::cases::Comparison;

/// What is put in the place of an octet.
const OTHER_OCTETS: [u8; 8] = [0x00, 0x01, 0x03, 0x04, 0x7F, 0x80, 0xFE, 0xFF];

/// The number of random damages of each area.
const DAMAGES: usize = 500;

/// Every copy of an area with one octet changed, taken out or put in, and every part from the
/// start or to the end.
fn copies(area: &[u8]) -> Vec<Vec<u8>> {
    let mut copies = Vec::new();
    for place in 0..area.len() {
        let (before, after) = area.split_at(place);
        let nearby = [area[place].wrapping_add(1), area[place].wrapping_sub(1)];
        for octet in nearby.into_iter().chain(OTHER_OCTETS) {
            copies.push([before, &[octet], &after[1..]].concat());
        }
        copies.push([before, &after[1..]].concat());
        copies.push([before, &[area[place]], after].concat());
        copies.extend([before.to_vec(), after.to_vec()]);
    }
    copies
}

#[test]
fn every_copy_with_one_damage_is_that_of_the_rust() {
    for mut comparison in Comparison::in_each_layout() {
        for area in oracle::areas() {
            comparison.every_room(area.registry, &area.octets);
            for copy in copies(&area.octets) {
                comparison.exact_room(area.registry, &copy);
            }
        }
        comparison.tally.assert_calls(100_000);
        comparison.tally.assert_answers(Call::Push, &[0], 50_000);
        comparison.tally.assert_answers(Call::Walk, &[0], 50_000);
    }
}

#[test]
fn every_area_in_another_registry_is_that_of_the_rust() {
    for mut comparison in Comparison::in_each_layout() {
        for area in oracle::areas() {
            for registry in 0..=oracle::LAST_REGISTRY {
                comparison.every_room(registry, &area.octets);
            }
        }
        comparison.tally.assert_calls(6_000);
        comparison.tally.assert_answers(Call::Push, &[0, 5], 1_600);
        comparison.tally.assert_answers(Call::Walk, &[0, 5], 1_600);
    }
}

/// Compares copies of an area, each with several damages.
fn compare_damages(comparison: &mut Comparison, registry: u8, octets: &[u8]) {
    for _ in 0..DAMAGES {
        let mut copy = octets.to_vec();
        damage(&mut comparison.random, &mut copy);
        comparison.every_room(registry, &copy);
    }
}

#[test]
fn copies_with_several_damages_are_those_of_the_rust() {
    for mut comparison in Comparison::in_each_layout() {
        for area in oracle::areas() {
            compare_damages(&mut comparison, area.registry, &area.octets);
        }
        let tally = comparison.tally;
        tally.assert_calls(500_000);
        tally.assert_answers(Call::Push, &[0, 5], 140_000);
        tally.assert_answers(Call::Walk, &[0, 5], 120_000);
    }
}

#[test]
fn copies_differ_in_one_place() {
    let wanted = 14 * 2;
    let copies = copies(&[0x12, 0x80]);
    assert_eq!(copies.len(), wanted);
    for copy in [
        &[0x12][..],
        &[0x80],
        &[],
        &[0x13, 0x80],
        &[0x12, 0x12, 0x80],
        &[0x12, 0x81],
    ] {
        assert!(copies.iter().any(|one| one == copy), "{copy:?}");
    }
}
