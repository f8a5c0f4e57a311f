//! What the random tapes are like.

use std::collections::BTreeSet;

use super::*;
use crate::model;

/// Numbers at the limits of half a word.
const HALVES: [u64; 4] = [0, 1, 4_294_967_294, 4_294_967_295];

/// Whether a forest of so many records and so deep is a nest.
fn is_nest(random: &mut Random, layout: Layout, most: usize, deep: u64) -> bool {
    let forest = forest(random, layout, most, deep);
    model::nest_test(layout, &tape(random, layout, &forest, 3))
}

#[test]
fn a_forest_is_a_nest_while_it_is_4_deep() {
    for layout in Layout::ALL {
        let mut random = Random::new(1);
        assert!((0..1_000).all(|round| is_nest(&mut random, layout, 30, round % 5)));
    }
}

#[test]
fn a_deeper_forest_is_often_no_nest() {
    for layout in Layout::ALL {
        let mut random = Random::new(1);
        let nests = (0..1_000).filter(|_| is_nest(&mut random, layout, 15, 6));
        assert!((200..800).contains(&nests.count()));
    }
}

/// Asserts the lengths of tapes where so many words or records are asked for.
fn assert_lengths(random: &mut Random, layout: Layout, length: usize) {
    let size = layout.record_words();
    assert_eq!(noise(random, layout, length).len(), length);
    assert!(forest(random, layout, length, 4).len() <= length);
    let records = vec![[0; 6]; length];
    assert_eq!(full(layout, &records).len(), 4 + size * length);
    assert_eq!(tape(random, layout, &records, 5).len(), 9 + size * length);
    let words = with_room(random, layout, &records, 7).len();
    assert_eq!(layout.room(words), length + 7);
}

#[test]
fn lengths_are_as_asked_for() {
    for layout in Layout::ALL {
        let mut random = Random::new(1);
        (0..60).for_each(|length| assert_lengths(&mut random, layout, length));
    }
}

#[test]
fn a_full_tape_has_the_words_of_its_records() {
    let records = [[1, 2, 3, 4, 5, 6], [0; 6]];
    let usual = full(Layout::Usual, &records);
    assert_eq!(usual, [2, 4, 6, 0, 1, 2, 3, 4, 5, 6, 0, 0, 0, 0, 0, 0]);
    let slim = full(Layout::Slim, &records);
    let places = [12_884_901_890, 25_769_803_781];
    assert_eq!(slim, [2, 4, 4, 0, 1, places[0], 4, places[1], 0, 0, 0, 0]);
}

/// Asserts that word 1 and word 3 each have every two limits in their halves, in some of these
/// slim records.
fn assert_halves(records: &[Record]) {
    let places: BTreeSet<_> = records
        .iter()
        .map(|record| [record[1], record[2]])
        .collect();
    let children: BTreeSet<_> = records
        .iter()
        .map(|record| [record[4], record[5]])
        .collect();
    for lower in HALVES {
        for upper in HALVES {
            assert!(places.contains(&[lower, upper]), "word 1: {lower} {upper}");
            assert!(
                children.contains(&[lower, upper]),
                "word 3: {lower} {upper}"
            );
        }
    }
}

#[test]
fn the_halves_of_slim_words_come_to_their_limits() {
    let mut random = Random::new(1);
    let any: Vec<Record> = (0..2_000)
        .map(|_| any_record(&mut random, Layout::Slim))
        .collect();
    assert_halves(&any);
    let tapes = (0..2_000).map(|_| noise(&mut random, Layout::Slim, 24));
    let noise = tapes.flat_map(|mut tape| {
        tape[..4].copy_from_slice(&Layout::Slim.header(5));
        let records = model::used_records(Layout::Slim, &tape).map(Vec::from_iter);
        records.expect("room for 5 records")
    });
    assert_halves(&noise.collect::<Vec<_>>());
}
