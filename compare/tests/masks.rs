//! Masks: the proved library against the oracle.

use std::io::{Write, stderr};

use compare::lent::Lent;
use compare::mapped::PartlyShut;
use compare::native;
use compare::random::{Random, seed};

/// The greatest prefix length tried, one octet over that of an IPv6 address.
const MOST_OCTETS: usize = 17;

/// The greatest bit count tried against every length.
const MOST_BITS: usize = 140;

/// The number of random prefixes for each length and bit count.
const RANDOM_PREFIXES: usize = 20;

/// Prefix lengths far over that of an address.
const GREAT_LENGTHS: [usize; 5] = [64, 255, 256, 1_000, 65_535];

/// Bit counts so great that a sum or product with them may overflow.
const GREAT_BIT_COUNTS: [usize; 9] = [
    usize::MAX,
    usize::MAX - 1,
    usize::MAX - 7,
    usize::MAX - 8,
    usize::MAX / 2 + 1,
    usize::MAX / 8 + 1,
    usize::MAX / 8,
    1 << 32,
    (1 << 32) + 1,
];

/// Asserts what masking makes of a prefix, and that nothing around it changes.
fn assert_mask(prefix: &[u8], bits: usize, expected: &[u8]) {
    let mut lent = Lent::around(prefix);
    let mut wanted = lent.clone();
    wanted.middle().copy_from_slice(expected);
    native::mask(lent.middle(), bits);
    assert_eq!(lent, wanted, "prefix {prefix:02x?} to {bits} bits");
}

/// Asserts that masking makes of a prefix what the oracle makes of it.
fn assert_as_oracle(prefix: &[u8], bits: usize) {
    let mut expected = prefix.to_vec();
    oracle::mask_prefix(&mut expected, bits);
    assert_mask(prefix, bits, &expected);
}

/// Prefixes of this length: all ones, all zeros, random ones.
fn prefixes(random: &mut Random, length: usize) -> Vec<Vec<u8>> {
    let mut prefixes = vec![vec![0xFF; length], vec![0; length]];
    prefixes.extend((0..RANDOM_PREFIXES).map(|_| random.octets(length)));
    prefixes
}

#[test]
fn every_mask_is_that_of_the_rust() {
    let seed = seed();
    println!("seed {seed}");
    let mut random = Random::new(seed);
    for bits in 0..=MOST_BITS {
        for length in 0..=MOST_OCTETS {
            for prefix in prefixes(&mut random, length) {
                assert_as_oracle(&prefix, bits);
            }
        }
    }
}

#[test]
fn a_bit_count_past_the_end_changes_nothing() {
    let seed = seed();
    println!("seed {seed}");
    let mut random = Random::new(seed);
    for bits in GREAT_BIT_COUNTS {
        for length in 0..=MOST_OCTETS {
            for prefix in prefixes(&mut random, length) {
                assert_mask(&prefix, bits, &prefix);
                assert_as_oracle(&prefix, bits);
            }
        }
    }
}

#[test]
fn every_mask_of_a_long_prefix_is_that_of_the_rust() {
    let seed = seed();
    println!("seed {seed}");
    let mut random = Random::new(seed);
    for length in GREAT_LENGTHS {
        let prefix = random.octets(length);
        let middle = random.below(length as u64 * 8) as usize;
        for start in [0, middle, length * 8 - 17] {
            for bits in start..start + 34 {
                assert_as_oracle(&prefix, bits);
            }
        }
    }
}

#[test]
fn octets_that_are_kept_whole_are_not_touched() {
    let seed = seed();
    println!("seed {seed}");
    let mut random = Random::new(seed);
    for open in 0..=MOST_OCTETS {
        let Some(mut octets) = PartlyShut::with_open(open) else {
            // Written past the test's own output, which is seen only where it fails.
            let message = b"masks.rs: NOT CHECKED, as this system shuts no octets\n";
            return stderr().write_all(message).expect("a message");
        };
        for bits in 0..=MOST_BITS {
            octets.open().copy_from_slice(&random.octets(open));
            let mut expected = octets.open().to_vec();
            oracle::mask_prefix(&mut expected, bits);
            native::mask_partly_shut(&mut octets, PartlyShut::SHUT * 8 + bits);
            assert_eq!(
                octets.open(),
                expected,
                "{bits} bits behind the shut octets"
            );
        }
    }
}

#[test]
fn the_masks_of_document_01_come_out() {
    assert_mask(&[0xFF, 0xFF], 13, &[0xFF, 0xF8]);
    assert_mask(&[0xFF, 0xFF], 16, &[0xFF, 0xFF]);
}

#[test]
fn a_null_pointer_of_length_0_is_masked() {
    for bits in (0..=MOST_BITS).chain(GREAT_BIT_COUNTS) {
        // A call that touched the pointer would end the run.
        native::mask_nothing(bits);
    }
}
