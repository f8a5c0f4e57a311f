//! Every small area: the proved library against the oracle.

use compare::agree::Call;
use compare::cases::Comparison;

/// For each registry octets at boundaries: types that it reads, least lengths, flags.
const ALPHABETS: [&[u8]; 6] = [
    &[0x00, 0x01, 0x03, 0x04, 0x05, 0x12, 0x80, 0xFF],
    &[0x00, 0x01, 0x02, 0x03, 0x04, 0x0B, 0x80, 0xFF],
    &[0x00, 0x01, 0x02, 0x04, 0x13, 0x17, 0x18, 0x19, 0xFF],
    &[0x00, 0x01, 0x02, 0x03, 0x04, 0x05, 0x80, 0xFF],
    &[0x00, 0x01, 0x02, 0x03, 0x04, 0x05, 0x80, 0xFF],
    &[0x00, 0x01, 0x02, 0x03, 0x04, 0x05, 0x80, 0xFF],
];

/// The most octets of an area out of any octets.
const MOST_OF_ANY: usize = 2;

/// The most octets of an area out of octets at boundaries.
const MOST_AT_BOUNDARIES: usize = 6;

/// Compares every area that starts with these octets and goes on with at most so many out of an
/// alphabet. Gives how many there are.
fn compare_every_area(
    comparison: &mut Comparison,
    registry: u8,
    start: &mut Vec<u8>,
    alphabet: &[u8],
    most: usize,
) -> u64 {
    comparison.every_room(registry, start);
    if most == 0 {
        return 1;
    }
    let counts = alphabet.iter().map(|octet| {
        start.push(*octet);
        let count = compare_every_area(comparison, registry, start, alphabet, most - 1);
        start.pop();
        count
    });
    1 + counts.sum::<u64>()
}

/// Asserts that so many areas were compared, in rooms enough and too little.
fn assert_compared(comparison: &Comparison, count: u64) {
    comparison.tally.assert_calls(6 * count);
    comparison.tally.assert_answers(Call::Walk, &[0, 5], count);
    comparison.tally.assert_answers(Call::Push, &[0, 5], count);
}

#[test]
fn every_area_of_up_to_2_octets_is_that_of_the_rust() {
    let any: Vec<u8> = (0..=u8::MAX).collect();
    for mut comparison in Comparison::in_each_layout() {
        let mut count = 0;
        for registry in 0..=oracle::LAST_REGISTRY {
            count += compare_every_area(&mut comparison, registry, &mut vec![], &any, MOST_OF_ANY);
        }
        assert_eq!(count, 6 * (1 + 256 + 65_536));
        assert_compared(&comparison, count);
    }
}

/// Compares every area at boundaries in these registries.
fn compare_boundaries(registries: &[u8]) {
    for mut comparison in Comparison::in_each_layout() {
        let mut count = 0;
        for registry in registries {
            let octets = ALPHABETS[usize::from(*registry)];
            let most = MOST_AT_BOUNDARIES;
            count += compare_every_area(&mut comparison, *registry, &mut vec![], octets, most);
        }
        assert!(count > 800_000);
        assert_compared(&comparison, count);
    }
}

#[test]
fn every_area_at_boundaries_in_the_first_registries_is_that_of_the_rust() {
    compare_boundaries(&[0, 1, 2]);
}

#[test]
fn every_area_at_boundaries_in_the_other_registries_is_that_of_the_rust() {
    compare_boundaries(&[3, 4, 5]);
}
