//! The nest test, and the calls on nests: the proved library against the model.

use compare::agree::{Call, Tally};
use compare::layout::Layout;
use compare::native::Record;
use compare::random::Random;
use compare::tapes;

/// The most records of a tape in which every small word is tried.
const MOST_RECORDS_OF_ANY_WORDS: u64 = 3;

/// The most records of a tape in which every end is tried.
const MOST_RECORDS_OF_ANY_ENDS: u64 = 7;

/// The number of random forests.
const FORESTS: u64 = 3_000;

/// The shapes of containers, and those beside them.
const SHAPES: [u64; 4] = [6, 7, 8, 9];

/// A record of this shape with these last two words.
fn record(shape: u64, first_child: u64, end: u64) -> Record {
    [256 * shape, 0, 0, 0, first_child, end]
}

/// Every record of these shapes whose last two words are at most one past the count.
fn any_words(count: u64) -> Vec<Record> {
    let words = || 0..=count + 1;
    let pairs = || words().flat_map(move |first| words().map(move |end| (first, end)));
    let records = SHAPES.map(|shape| pairs().map(move |(first, end)| record(shape, first, end)));
    records.into_iter().flatten().collect()
}

/// A leaf, and every container at this position with its first child in place
/// and an end at most one past the count.
fn any_end(position: u64, count: u64) -> Vec<Record> {
    let next = position + 1;
    let containers = (next..=count + 1).map(|end| record(7 + position % 2, next, end));
    [record(0, 0, 0)].into_iter().chain(containers).collect()
}

/// Compares the nest test of every tape that takes one record out of each list.
fn compare_every_tape(tally: &mut Tally, chosen: &mut Vec<Record>, choices: &[Vec<Record>]) {
    let Some((records, rest)) = choices.split_first() else {
        return tally.nest_test(&tapes::full(tally.layout(), chosen));
    };
    for record in records {
        chosen.push(*record);
        compare_every_tape(tally, chosen, rest);
        chosen.pop();
    }
}

/// The damaged records that differ from this one in the first child, the child end or the shape.
fn damages(random: &mut Random, layout: Layout, record: Record, count: u64) -> Vec<Record> {
    let [kind, start, end, number, first_child, last] = record;
    let mut damaged = Vec::new();
    let great = [layout.held(random.word()), layout.greatest()];
    for word in great.into_iter().chain(0..=count + 1) {
        damaged.push([kind, start, end, number, word, last]);
        damaged.push([kind, start, end, number, first_child, word]);
    }
    for high in layout.great() {
        damaged.push([kind, start, end, number, first_child ^ high, last]);
        damaged.push([kind, start, end, number, first_child, last ^ high]);
    }
    for shape in SHAPES {
        let kind = (kind & !0xFF00) | (shape << 8);
        damaged.push([kind, start, end, number, first_child, last]);
    }
    damaged
}

/// Compares the nest test of every copy of a random forest with one record damaged.
fn compare_damaged(tally: &mut Tally, random: &mut Random, round: u64) {
    let layout = tally.layout();
    let forest = tapes::forest(random, layout, 12, round % 7);
    for (place, record) in forest.iter().enumerate() {
        for damaged in damages(random, layout, *record, forest.len() as u64) {
            let mut records = forest.clone();
            records[place] = damaged;
            tally.nest_test(&tapes::tape(random, layout, &records, 1));
        }
    }
}

#[test]
fn the_nest_test_of_every_small_tape_is_that_of_the_model() {
    for mut tally in Tally::in_each_layout() {
        for count in 0..=MOST_RECORDS_OF_ANY_WORDS {
            let choices = vec![any_words(count); count as usize];
            compare_every_tape(&mut tally, &mut Vec::new(), &choices);
        }
        tally.assert_calls(1_000_000);
        tally.assert_answers(Call::NestTest, &[1], 100);
    }
}

#[test]
fn the_nest_test_of_every_choice_of_ends_is_that_of_the_model() {
    for mut tally in Tally::in_each_layout() {
        for count in 0..=MOST_RECORDS_OF_ANY_ENDS {
            let choices: Vec<_> = (0..count)
                .map(|position| any_end(position, count))
                .collect();
            compare_every_tape(&mut tally, &mut Vec::new(), &choices);
        }
        tally.assert_calls(200_000);
        tally.assert_answers(Call::NestTest, &[0, 1], 500);
    }
}

#[test]
fn every_call_on_a_forest_is_that_of_the_model() {
    for mut tally in Tally::in_each_layout() {
        let layout = tally.layout();
        let mut random = Random::of_this_run();
        for round in 0..FORESTS {
            let forest = tapes::forest(&mut random, layout, 40, round % 7);
            let tape = tapes::tape(&mut random, layout, &forest, (round % 20) as usize);
            let arguments = tapes::arguments(&mut random, layout, &tape);
            tally.every_call(&tape, &arguments);
        }
        tally.assert_calls(100_000);
        tally.assert_answers(Call::CutBack, &[0, 6, 7], 1_000);
        tally.assert_answers(Call::NestTest, &[0, 1], 500);
    }
}

#[test]
fn the_nest_test_of_a_damaged_forest_is_that_of_the_model() {
    for mut tally in Tally::in_each_layout() {
        let mut random = Random::of_this_run();
        (0..FORESTS).for_each(|round| compare_damaged(&mut tally, &mut random, round));
        tally.assert_calls(900_000);
        tally.assert_answers(Call::NestTest, &[0, 1], 10_000);
    }
}
