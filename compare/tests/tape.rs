//! Every call on tapes of every kind: the proved library against the model.

use compare::agree::{Call, Tally};
use compare::layout::Layout;
use compare::model::{self, bare};
use compare::native;
use compare::random::Random;
use compare::tapes;

/// The greatest length of a tape of noise, in words.
const MOST_WORDS: usize = 60;

/// The number of tapes of noise for each length.
const NOISE_TAPES: usize = 300;

/// The greatest room of a tape whose header is tried.
const MOST_ROOM: u64 = 6;

/// The number of forests that are damaged in every word.
const FORESTS: u64 = 60;

/// Numbers at which a sum or a product with them may overflow.
const GREAT: [u64; 8] = [
    1 << 32,
    1 << 61,
    1 << 62,
    1 << 63,
    u64::MAX / 6,
    u64::MAX / 6 + 1,
    u64::MAX - 5,
    u64::MAX,
];

/// Every choice of words 1 to 3 of a header out of 0, 4 and 6.
fn mixed_headers() -> impl Iterator<Item = [u64; 3]> {
    let word = |choice: usize| [0, 4, 6][choice % 3];
    (0..27).map(move |choice| [choice, choice / 3, choice / 9].map(word))
}

/// Words 1 to 3 of headers that are wrong, the other layout's among them.
fn wrong_headers(layout: Layout) -> Vec<[u64; 3]> {
    let [_, right @ ..] = layout.header(0);
    let mixed = mixed_headers().filter(|header| *header != right);
    let mut headers: Vec<_> = mixed.chain([[u64::MAX; 3]]).collect();
    let high = [1 << 8, 1 << 16, 1 << 31, 1 << 32, 1 << 33, 1 << 62, 1 << 63];
    for place in 0..3 {
        for off in high.into_iter().chain([1, 2, u64::MAX]) {
            let mut header = right;
            header[place] = header[place].wrapping_add(off);
            headers.push(header);
        }
    }
    headers
}

/// Counts of used records, near the room or far over it.
fn counts(room: u64) -> Vec<u64> {
    let mut counts = vec![room, room.wrapping_sub(1), room + 1, room + 2];
    for great in GREAT {
        counts.extend([great, great.wrapping_add(room), great.wrapping_sub(room)]);
    }
    counts
}

/// Asserts what the calls make of the first words of a tape, lent where they
/// stand, and that the others stay.
fn assert_part(layout: Layout, tape: &[u64], length: usize) {
    let part = &tape[..length];
    let (given, expected) = (
        native::nest_test(layout, part),
        model::nest_test(layout, part),
    );
    assert_eq!(given, expected, "{layout} {part:?}");
    let mut left = tape.to_vec();
    let given = native::clear(layout, &mut left[..length]);
    let expected = model::clear(layout, part);
    assert_eq!(given, expected.outcome, "{layout} {part:?}");
    let wanted = [&expected.tape, &tape[length..]].concat();
    assert_eq!(left, wanted, "{layout} {part:?}");
    (0..=MOST_ROOM).for_each(|argument| assert_part_with(layout, tape, length, argument));
}

/// Asserts what read and cut back make of the first words of a tape, with this argument.
fn assert_part_with(layout: Layout, tape: &[u64], length: usize, argument: u64) {
    let part = &tape[..length];
    let call = format!("{layout} {argument} of {part:?}");
    let given = native::read(layout, part, argument);
    assert_eq!(given, model::read(layout, part, argument), "{call}");
    let mut left = tape.to_vec();
    let given = native::cut_back(layout, &mut left[..length], argument);
    let expected = model::cut_back(layout, part, argument);
    assert_eq!(given, expected.outcome, "{call}");
    assert_eq!(left, [&expected.tape, &tape[length..]].concat(), "{call}");
}

/// Compares every call on a tape, with arguments of every size.
fn compare_tape(tally: &mut Tally, random: &mut Random, tape: &[u64]) {
    let arguments = tapes::arguments(random, tally.layout(), tape);
    tally.every_call(tape, &arguments);
}

#[test]
fn every_call_on_noise_is_that_of_the_model() {
    for mut tally in Tally::in_each_layout() {
        let mut random = Random::of_this_run();
        for length in 0..=MOST_WORDS {
            for _ in 0..NOISE_TAPES {
                let tape = tapes::noise(&mut random, tally.layout(), length);
                compare_tape(&mut tally, &mut random, &tape);
            }
        }
        tally.assert_calls(750_000);
        tally.assert_answers(Call::Clear, &[0, 4], 1_000);
        tally.assert_answers(Call::CutBack, &[0, 4, 6, 7], 10_000);
        tally.assert_answers(Call::Read, &[0, 4, 6, 8], 10_000);
        tally.assert_answers(Call::NestTest, &[0, 1], 1_000);
    }
}

#[test]
fn a_wrong_header_is_refused_by_all_but_clear() {
    for mut tally in Tally::in_each_layout() {
        let layout = tally.layout();
        let mut random = Random::of_this_run();
        for room in 0..=MOST_ROOM {
            for header in wrong_headers(layout) {
                let mut tape = tapes::full(layout, &tapes::leaves(room));
                tape[1..4].copy_from_slice(&header);
                compare_tape(&mut tally, &mut random, &tape);
            }
        }
        tally.assert_calls(16_000);
        tally.assert_answers(Call::Clear, &[0], 399);
        tally.assert_answers(Call::CutBack, &[4], 399 * 20);
        tally.assert_answers(Call::Read, &[4], 399 * 20);
        tally.assert_answers(Call::NestTest, &[0], 399);
    }
}

#[test]
fn the_count_is_held_to_the_room() {
    for mut tally in Tally::in_each_layout() {
        let layout = tally.layout();
        let mut random = Random::of_this_run();
        for room in 0..=MOST_ROOM {
            let unused = (0..layout.record_words()).cycle();
            for (count, unused) in counts(room).into_iter().zip(unused) {
                let mut tape = tapes::tape(&mut random, layout, &tapes::leaves(room), unused);
                tape[0] = count;
                compare_tape(&mut tally, &mut random, &tape);
            }
        }
        tally.assert_calls(8_000);
        tally.assert_answers(Call::CutBack, &[0, 4, 6], 50);
        tally.assert_answers(Call::Read, &[0, 4, 6], 30);
        tally.assert_answers(Call::NestTest, &[0, 1], 13);
    }
}

#[test]
fn part_of_a_header_is_refused() {
    for mut tally in Tally::in_each_layout() {
        let [used, first, size, zero] = tally.layout().header(0);
        for length in 0..4 {
            for header in [
                [used, first, size],
                [first, size, zero],
                [0; 3],
                [u64::MAX; 3],
            ] {
                tally.every_call(&header[..length], &[0, 1, 4, u64::MAX]);
            }
        }
        tally.assert_calls(160);
        tally.assert_answers(Call::Clear, &[4], 16);
        tally.assert_answers(Call::CutBack, &[4], 64);
        tally.assert_answers(Call::Read, &[4], 64);
        tally.assert_answers(Call::NestTest, &[0], 16);
    }
}

/// Compares every call on copies of a tape with a great word in one place.
fn compare_great_words(tally: &mut Tally, random: &mut Random, tape: &[u64]) {
    for place in 0..tape.len() {
        for great in GREAT {
            let mut damaged = tape.to_vec();
            damaged[place] = great.wrapping_sub(random.below(3));
            compare_tape(tally, random, &damaged);
        }
    }
}

#[test]
fn a_great_word_in_any_place_is_met_as_by_the_model() {
    for mut tally in Tally::in_each_layout() {
        let layout = tally.layout();
        let mut random = Random::of_this_run();
        for round in 0..FORESTS {
            let forest = tapes::forest(&mut random, layout, 9, round % 7);
            let tape = tapes::tape(&mut random, layout, &forest, 2);
            compare_great_words(&mut tally, &mut random, &tape);
        }
        tally.assert_calls(600_000);
        tally.assert_answers(Call::CutBack, &[0, 4, 6, 7], 10_000);
        tally.assert_answers(Call::Read, &[0, 4, 6, 8], 10_000);
        tally.assert_answers(Call::NestTest, &[0, 1], 1_000);
    }
}

#[test]
fn what_lies_past_the_lent_words_does_not_matter() {
    for layout in Layout::ALL {
        let mut tape = tapes::full(layout, &tapes::leaves(MOST_ROOM));
        for length in 0..=tape.len() {
            for used in 0..=MOST_ROOM {
                tape[0] = used;
                assert_part(layout, &tape, length);
            }
        }
    }
}

#[test]
fn a_null_pointer_of_length_0_is_no_tape() {
    for layout in Layout::ALL {
        assert_eq!(native::clear_nothing(layout), bare(4));
        assert!(!native::nest_test_nothing(layout));
        for argument in [0, 1].into_iter().chain(GREAT) {
            assert_eq!(native::cut_back_nothing(layout, argument), bare(4));
            let given = native::read_nothing(layout, argument);
            assert_eq!(given, ([0; 6], bare(4)));
        }
    }
}
