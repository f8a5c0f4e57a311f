//! Read, at the limits of a record's words: the proved library against the model.

use compare::agree::{Call, Tally};
use compare::native::Record;
use compare::random::Random;
use compare::tapes;

/// One past the greatest word 0 of which all before it are tried: eight registries.
const KINDS: u64 = 8 * 65_536;

/// First octets and octets past the last.
const PLACES: [u64; 15] = [
    0,
    1,
    2,
    (1 << 31) - 1,
    1 << 31,
    (1 << 31) + 1,
    (1 << 32) - 2,
    (1 << 32) - 1,
    1 << 32,
    (1 << 32) + 1,
    (1 << 63) - 1,
    1 << 63,
    (1 << 63) + 1,
    u64::MAX - 1,
    u64::MAX,
];

/// The most records of a tape that is read at every position.
const MOST_RECORDS: u64 = 20;

/// Compares a read of what the layout holds of this record, between two others.
fn compare_record(tally: &mut Tally, record: Record) {
    let layout = tally.layout();
    let before = [57, 3, 2, 1, 0, 0];
    let after = [9 * 256, 3, 2, 1, 0, 0];
    let records = [before, layout.fitted(record), after];
    tally.read(&tapes::full(layout, &records), 1);
}

#[test]
fn a_read_of_every_label_and_shape_is_that_of_the_model() {
    for mut tally in Tally::in_each_layout() {
        for kind in 0..KINDS {
            compare_record(&mut tally, [kind, kind, kind, !kind, kind << 8, u64::MAX]);
        }
        tally.assert_calls(500_000);
        tally.assert_answers(Call::Read, &[0], 6 * 57 * 9);
        tally.assert_answers(Call::Read, &[8], 500_000);
    }
}

#[test]
fn a_great_word_0_is_refused() {
    for mut tally in Tally::in_each_layout() {
        for low in [0, 56, 57, 8 * 256, 9 * 256, 5 * 65_536] {
            for high in (19..64).map(|bit| 1 << bit) {
                compare_record(&mut tally, [low + high, 1, 2, 3, 4, 5]);
            }
        }
        for kind in [393_216, 393_217, u64::MAX, u64::MAX - 0xFFFF] {
            compare_record(&mut tally, [kind, 1, 2, 3, 4, 5]);
        }
        tally.assert_calls(270);
        tally.assert_answers(Call::Read, &[8], 270);
    }
}

/// Compares reads of records with these places, each as a start and as an end.
fn compare_places(tally: &mut Tally, places: &[u64]) {
    for start in places {
        for end in places {
            compare_record(tally, [393_216 - 65_536, *start, *end, 3, 4, 5]);
        }
    }
}

#[test]
fn a_start_after_the_end_is_refused() {
    for (mut tally, count) in Tally::in_each_layout().into_iter().zip([15, 8]) {
        let greatest = tally.layout().greatest();
        let places = PLACES.into_iter().filter(|place| *place <= greatest);
        compare_places(&mut tally, &Vec::from_iter(places));
        tally.assert_calls(count * count);
        tally.assert_answers(Call::Read, &[0], count * (count + 1) / 2);
        tally.assert_answers(Call::Read, &[8], count * (count - 1) / 2);
    }
}

/// Compares reads at every position, and at some past the last, of leaves with random words after
/// them.
fn compare_every_position(tally: &mut Tally, random: &mut Random, count: u64) {
    for unused in 0..14 {
        let tape = tapes::tape(random, tally.layout(), &tapes::leaves(count), unused);
        (0..count + 4).for_each(|at| tally.read(&tape, at));
    }
}

#[test]
fn a_read_gives_the_record_at_its_position() {
    for mut tally in Tally::in_each_layout() {
        let mut random = Random::of_this_run();
        for count in 0..=MOST_RECORDS {
            compare_every_position(&mut tally, &mut random, count);
        }
        tally.assert_calls(4_000);
        tally.assert_answers(Call::Read, &[0], 2_900);
        tally.assert_answers(Call::Read, &[6], 1_100);
    }
}
