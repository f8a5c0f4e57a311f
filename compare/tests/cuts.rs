//! Cut back, where records end near the mark: the proved library against the model.

use compare::agree::{Call, Tally};
use compare::layout::Layout;
use compare::native::Record;
use compare::random::Random;
use compare::tapes;

/// The most records of a tape in which every small word 5 is tried.
const MOST_RECORDS_OF_ANY_ENDS: u64 = 5;

/// The number of random forests.
const FORESTS: u64 = 300;

/// The most records of a tape of leaves.
const MOST_LEAVES: u64 = 9;

/// Compares cuts to every mark up to two past the count.
fn compare_every_mark(tally: &mut Tally, tape: &[u64]) {
    for mark in 0..=tape[0] + 2 {
        tally.cut_back(tape, mark);
    }
}

/// Compares cuts of every tape of so many records with any small word 5 and the greatest word 4.
fn compare_every_tape(tally: &mut Tally, records: &mut Vec<Record>, count: u64) {
    if records.len() as u64 == count {
        return compare_every_mark(tally, &tapes::full(tally.layout(), records));
    }
    for end in 0..=count + 1 {
        records.push([7 * 256, 0, 0, 0, tally.layout().greatest(), end]);
        compare_every_tape(tally, records, count);
        records.pop();
    }
}

/// The positions of the first, a middle and the last record that a cut to this
/// mark keeps, and of the first and the last that it drops.
fn places(mark: u64, count: u64) -> impl Iterator<Item = usize> {
    let kept = [0, mark / 2, mark.saturating_sub(1)];
    let places = kept.into_iter().chain([mark, count.saturating_sub(1)]);
    places
        .filter(move |place| *place < count)
        .map(|place| place as usize)
}

/// Ends of records, near this mark or far over it.
fn ends(layout: Layout, mark: u64) -> [u64; 7] {
    let before = mark.saturating_sub(1);
    let [great, greater, greatest] = layout.great();
    [before, mark, mark + 1, mark + 2, great, greater, greatest]
}

/// Compares cuts where one record ends near this mark or far over it.
fn compare_changed_ends(tally: &mut Tally, records: &[Record], mark: u64) {
    for place in places(mark, records.len() as u64) {
        for end in ends(tally.layout(), mark) {
            let mut changed = records.to_vec();
            changed[place][5] = end;
            compare_every_mark(tally, &tapes::full(tally.layout(), &changed));
        }
    }
}

/// Compares cuts of a random forest, and of copies of it where one record ends elsewhere.
fn compare_forest(tally: &mut Tally, random: &mut Random, round: u64) {
    let forest = tapes::forest(random, tally.layout(), 15, round % 7);
    let tape = tapes::tape(random, tally.layout(), &forest, (round % 15) as usize);
    compare_every_mark(tally, &tape);
    for mark in 0..=forest.len() as u64 {
        compare_changed_ends(tally, &forest, mark);
    }
}

#[test]
fn every_cut_of_every_choice_of_ends_is_that_of_the_model() {
    for mut tally in Tally::in_each_layout() {
        for count in 0..=MOST_RECORDS_OF_ANY_ENDS {
            compare_every_tape(&mut tally, &mut Vec::new(), count);
        }
        tally.assert_calls(140_000);
        tally.assert_answers(Call::CutBack, &[0, 6, 7], 20_000);
    }
}

#[test]
fn every_cut_of_a_forest_is_that_of_the_model() {
    for mut tally in Tally::in_each_layout() {
        let mut random = Random::of_this_run();
        (0..FORESTS).for_each(|round| compare_forest(&mut tally, &mut random, round));
        tally.assert_calls(1_000_000);
        tally.assert_answers(Call::CutBack, &[0, 6, 7], 100_000);
    }
}

#[test]
fn one_end_among_leaves_decides_a_cut() {
    for mut tally in Tally::in_each_layout() {
        for count in 1..=MOST_LEAVES {
            for mark in 0..=count {
                compare_changed_ends(&mut tally, &tapes::leaves(count), mark);
            }
        }
        tally.assert_calls(16_000);
        tally.assert_answers(Call::CutBack, &[0, 6, 7], 3_000);
    }
}
