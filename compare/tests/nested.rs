//! Areas and ranges inside values: the proved library against the oracle.

use compare::agree::Call;
use compare::areas::{entry, octets, tail_rows};
use compare::cases::Comparison;

/// The most pieces in a row.
const MOST_PIECES: usize = 3;

/// Pieces of inner areas.
const INNER_PIECES: [&[u8]; 9] = [
    // one octet
    &[0x01],
    &[0x04],
    // entries without octets
    &[0x01, 0x00],
    &[0x05, 0x00],
    // a structure, one too short, one too long
    &[0x01, 0x04, 0xA8, 0x53, 0x1C, 0xE7],
    &[0x01, 0x03, 0xA8, 0x53, 0x1C],
    &[0x01, 0x05, 0x57, 0xAC, 0xE3, 0x18, 0xB6],
    // an unknown type
    &[0x02, 0x04, 0xA8, 0x53, 0x1C, 0xE7],
    // an entry that overruns by one
    &[0x01, 0x04, 0xA8, 0x53, 0x1C],
];

/// Pieces of ranges.
const RANGE_PIECES: [&[u8]; 10] = [
    // right ones
    &[0x8A, 0x3B, 0x5C, 0x01, 0x03, 0xF9, 0x47, 0xD2],
    &[0x75, 0xC4, 0xA3, 0x01, 0x04, 0xF6, 0xB8, 0x2D, 0x91],
    // other lengths
    &[0x8A, 0x3B, 0x5C, 0x01, 0x02, 0xF9, 0x47],
    &[0x8A, 0x3B, 0x5C, 0x01, 0x05, 0xF9, 0x47, 0xD2, 0x6E, 0x10],
    &[0x8A, 0x3B, 0x5C, 0x01, 0x83, 0xF9, 0x47, 0xD2],
    // other sub-types
    &[0x8A, 0x3B, 0x5C, 0x00, 0x03, 0xF9, 0x47, 0xD2],
    &[0x75, 0xC4, 0xA3, 0x02, 0x04, 0xF6, 0xB8, 0x2D, 0x91],
    // cut off by one octet
    &[0x8A, 0x3B, 0x5C, 0x01, 0x03, 0xF9, 0x47],
    &[0x75, 0xC4, 0xA3, 0x01],
    // one octet
    &[0x01],
];

/// All sequences of at most so many pieces.
fn sequences(pieces: &[&[u8]], most: usize) -> Vec<Vec<u8>> {
    let mut all = vec![vec![]];
    let mut longest = all.clone();
    for _ in 0..most {
        let longer = |start: &Vec<u8>| {
            pieces
                .iter()
                .map(|piece| [start, *piece].concat())
                .collect()
        };
        longest = longest.iter().flat_map::<Vec<_>, _>(longer).collect();
        all.extend_from_slice(&longest);
    }
    all
}

/// Compares an SRv6 tail whose length octet says this.
fn compare_tail(comparison: &mut Comparison, inner: &[u8], length: usize) {
    for row in tail_rows() {
        let head = octets(&mut comparison.random, row.least);
        let value = [&head[..], &[length as u8], inner].concat();
        comparison.every_room(row.registry, &entry(row.t, &value));
    }
}

/// Compares SRv6 tails with this inner area, whatever their length octet says of it.
fn compare_tails(comparison: &mut Comparison, inner: &[u8]) {
    for length in (0..=inner.len() + 2).chain([255]) {
        compare_tail(comparison, inner, length);
    }
}

#[test]
fn every_srv6_tail_is_that_of_the_rust() {
    for mut comparison in Comparison::in_each_layout() {
        for inner in sequences(&INNER_PIECES, MOST_PIECES) {
            compare_tails(&mut comparison, &inner);
        }
        comparison.tally.assert_calls(290_000);
        comparison.tally.assert_answers(Call::Push, &[0, 5], 70_000);
        comparison.tally.assert_answers(Call::Walk, &[0, 5], 70_000);
    }
}

#[test]
fn every_area_of_srv6_capabilities_is_that_of_the_rust() {
    for mut comparison in Comparison::in_each_layout() {
        for inner in sequences(&INNER_PIECES, MOST_PIECES + 1) {
            let flags = octets(&mut comparison.random, 2);
            let whole = entry(25, &[flags, inner].concat());
            comparison.every_room(2, &whole);
            comparison.every_room(2, &[&whole[..], &[25, 0]].concat());
        }
        comparison.tally.assert_calls(100_000);
        comparison.tally.assert_answers(Call::Push, &[0, 5], 25_000);
        comparison.tally.assert_answers(Call::Walk, &[0, 5], 25_000);
    }
}

#[test]
fn every_sequence_of_ranges_is_that_of_the_rust() {
    for mut comparison in Comparison::in_each_layout() {
        for ranges in sequences(&RANGE_PIECES, MOST_PIECES + 1) {
            for t in [2, 22] {
                let flags = octets(&mut comparison.random, 1);
                comparison.every_room(2, &entry(t, &[&flags, &ranges[..]].concat()));
            }
        }
        comparison.tally.assert_calls(150_000);
        comparison.tally.assert_answers(Call::Push, &[0, 5], 40_000);
        comparison.tally.assert_answers(Call::Walk, &[0, 5], 40_000);
    }
}

#[test]
fn sequences_have_every_number_of_pieces() {
    let pieces: [&[u8]; 2] = [&[1], &[2, 3]];
    let two = [vec![1, 1], vec![1, 2, 3], vec![2, 3, 1], vec![2, 3, 2, 3]];
    let wanted = [&[vec![], vec![1], vec![2, 3]][..], &two].concat();
    assert_eq!(sequences(&pieces, 2), wanted);
}
