//! Cases of documents 01 and 02, worked out by hand.

use super::*;
use crate::tapes::full;

/// The records of document 01's listing.
const LISTING: [Record; 5] = [
    [1796, 100, 105, 0, 1, 5],
    [2095, 100, 105, 0, 2, 5],
    [0, 100, 101, 18, 0, 0],
    [1, 101, 102, 3, 0, 0],
    [527, 102, 105, 10, 0, 0],
];

/// The listing on a slim tape, word by word.
const SLIM_LISTING: [u64; 24] = [
    5,
    4,
    4,
    0,
    1796,
    450_971_566_180,
    0,
    21_474_836_481,
    2095,
    450_971_566_180,
    0,
    21_474_836_482,
    0,
    433_791_696_996,
    18,
    0,
    1,
    438_086_664_293,
    3,
    0,
    527,
    450_971_566_182,
    10,
    0,
];

/// A leaf.
const LEAF: Record = [2, 10, 20, 30, 0, 0];

/// An object whose children start at `first` and end before `end`.
fn object(first: u64, end: u64) -> Record {
    [2048 + 47, 10, 20, 0, first, end]
}

/// The listing's tape with one word of the header changed.
fn listing_with(layout: Layout, place: usize, word: u64) -> Vec<u64> {
    let mut tape = full(layout, &LISTING);
    tape[place] = word;
    tape
}

/// The listing's tape with another child end at one position.
fn listing_with_end(layout: Layout, at: usize, end: u64) -> Vec<u64> {
    let mut records = LISTING;
    records[at][5] = end;
    full(layout, &records)
}

/// What the nest test says of these records.
fn is_nest(layout: Layout, records: &[Record]) -> bool {
    nest_test(layout, &full(layout, records))
}

/// What a read of a lone record gives.
fn read_lone(layout: Layout, record: Record) -> (Record, Outcome) {
    read(layout, &full(layout, &[record]), 0)
}

/// `count` objects in each other, the innermost empty.
fn nest(count: u64) -> Vec<Record> {
    (1..=count).map(|first| object(first, count)).collect()
}

/// Tapes for which answer 4 is due, but not to a clear.
fn wrong_headers(layout: Layout) -> Vec<Vec<u64>> {
    let size = layout.record_words() as u64;
    let others = [(2, size - 1), (2, size + 1), (2, 10 - size), (3, 1)];
    let words = [(0, 6), (0, u64::MAX), (1, 5), (1, 0)];
    let words = words.into_iter().chain(others);
    let tapes = words.map(|(place, word)| listing_with(layout, place, word));
    let mut short = full(layout, &[LEAF]);
    short.pop();
    tapes.chain([short]).collect()
}

/// Asserts that all calls but clear answer 4 to a tape.
fn assert_no_tape(layout: Layout, tape: &[u64]) {
    assert_eq!(cut_back(layout, tape, 0), unchanged(tape, bare(4)));
    assert_eq!(read(layout, tape, 0), ([0; 6], bare(4)));
    assert!(!nest_test(layout, tape));
}

#[test]
fn clear_writes_the_header_only() {
    let after = clear(Layout::Usual, &[9, 9, 9, 9, 9, 9]);
    assert_eq!(after.outcome, bare(0));
    assert_eq!(after.tape, [0, 4, 6, 0, 9, 9]);
    assert_eq!(clear(Layout::Usual, &[9; 4]).tape, [0, 4, 6, 0]);
    let after = clear(Layout::Slim, &[9, 9, 9, 9, 9, 9]);
    assert_eq!(after.outcome, bare(0));
    assert_eq!(after.tape, [0, 4, 4, 0, 9, 9]);
}

#[test]
fn clear_is_refused_under_4_words_only() {
    for layout in Layout::ALL {
        for length in 0..4 {
            let tape = vec![9; length];
            assert_eq!(clear(layout, &tape), unchanged(&tape, bare(4)));
        }
        for tape in wrong_headers(layout) {
            assert_eq!(clear(layout, &tape).outcome, bare(0));
        }
    }
}

#[test]
fn a_wrong_header_is_answer_4() {
    for layout in Layout::ALL {
        for tape in wrong_headers(layout) {
            assert_no_tape(layout, &tape);
        }
        for length in 0..4 {
            assert_no_tape(layout, &vec![0; length]);
        }
    }
}

#[test]
fn a_tape_of_the_other_layout_is_answer_4() {
    assert_no_tape(Layout::Slim, &[0, 4, 6, 0, 9, 9, 9, 9, 9, 9]);
    assert_no_tape(Layout::Usual, &[0, 4, 4, 0, 9, 9, 9, 9, 9, 9]);
    assert_no_tape(Layout::Usual, &SLIM_LISTING);
}

#[test]
fn answer_4_comes_before_6() {
    for layout in Layout::ALL {
        let tape = listing_with(layout, 3, 1);
        assert_eq!(cut_back(layout, &tape, 6).outcome, bare(4));
        assert_eq!(read(layout, &tape, 5), ([0; 6], bare(4)));
    }
}

#[test]
fn cut_back_lowers_word_0_only() {
    for layout in Layout::ALL {
        let tape = full(layout, &LISTING);
        assert_eq!(cut_back(layout, &tape, 0).outcome, bare(0));
        let lowered = listing_with(layout, 0, 0);
        assert_eq!(cut_back(layout, &tape, 0).tape, lowered);
        assert_eq!(cut_back(layout, &tape, 5), unchanged(&tape, bare(0)));
    }
}

#[test]
fn a_mark_past_the_count_is_answer_6() {
    for layout in Layout::ALL {
        let tape = full(layout, &LISTING);
        for mark in [6, 7, 1 << 32, u64::MAX] {
            assert_eq!(cut_back(layout, &tape, mark), unchanged(&tape, bare(6)));
        }
        let passes_its_end = listing_with_end(layout, 0, layout.greatest());
        assert_eq!(cut_back(layout, &passes_its_end, 6).outcome, bare(6));
    }
}

#[test]
fn a_kept_record_that_ends_above_the_mark_is_answer_7() {
    for layout in Layout::ALL {
        let tape = full(layout, &LISTING);
        for mark in 1..5 {
            assert_eq!(cut_back(layout, &tape, mark), unchanged(&tape, bare(7)));
        }
        let tape = listing_with_end(layout, 4, 6);
        assert_eq!(cut_back(layout, &tape, 5).outcome, bare(7));
    }
}

#[test]
fn what_the_cut_drops_does_not_matter() {
    for layout in Layout::ALL {
        let tape = full(layout, &[LEAF, LEAF, object(3, layout.greatest())]);
        assert_eq!(cut_back(layout, &tape, 2).outcome, bare(0));
        assert_eq!(cut_back(layout, &tape, 3).outcome, bare(7));
    }
}

#[test]
fn the_first_child_does_not_matter_to_a_cut() {
    for layout in Layout::ALL {
        let tape = full(layout, &[LEAF, object(layout.greatest(), 2)]);
        assert_eq!(cut_back(layout, &tape, 2).outcome, bare(0));
        let tape = full(layout, &[LEAF, object(0, 3)]);
        assert_eq!(cut_back(layout, &tape, 2).outcome, bare(7));
    }
}

#[test]
fn read_gives_one_record() {
    let usual = full(Layout::Usual, &LISTING);
    for (at, record) in (0..).zip(LISTING) {
        assert_eq!(read(Layout::Usual, &usual, at), (record, bare(0)));
        assert_eq!(read(Layout::Slim, &SLIM_LISTING, at), (record, bare(0)));
    }
}

#[test]
fn a_read_at_or_past_the_count_is_answer_6() {
    for layout in Layout::ALL {
        for at in [5, 6, 1 << 32, u64::MAX] {
            assert_eq!(read(layout, &full(layout, &LISTING), at), ([0; 6], bare(6)));
        }
        assert_eq!(read(layout, &full(layout, &[]), 0), ([0; 6], bare(6)));
    }
}

#[test]
fn a_record_that_says_nothing_is_answer_8() {
    for layout in Layout::ALL {
        let wrong = [57, 255, 9 * 256, 255 * 256, 393_216, 1 << 32, u64::MAX];
        for kind in wrong {
            let given = read_lone(layout, [kind, 1, 2, 3, 4, 5]);
            assert_eq!(given, ([0; 6], bare(8)));
        }
        let given = read_lone(layout, [0, 3, 2, 3, 4, 5]);
        assert_eq!(given, ([0; 6], bare(8)));
    }
}

#[test]
fn a_record_just_inside_the_limits_is_read() {
    let last_of_all = 5 * 65_536 + 8 * 256 + 56;
    for layout in Layout::ALL {
        let greatest = layout.greatest();
        for record in [
            [last_of_all, 2, 2, 3, 4, 5],
            [56, 0, greatest, 3, 0, 5],
            [56, greatest, greatest, 3, greatest, 0],
        ] {
            assert_eq!(read_lone(layout, record), (record, bare(0)));
        }
        let given = read_lone(layout, [0, greatest, greatest - 1, 3, 4, 5]);
        assert_eq!(given, ([0; 6], bare(8)));
    }
}

#[test]
fn the_listing_and_an_empty_tape_are_nests() {
    assert!(is_nest(Layout::Usual, &LISTING));
    assert!(nest_test(Layout::Slim, &SLIM_LISTING));
    assert!(nest_test(Layout::Usual, &[0, 4, 6, 0]));
    assert!(nest_test(Layout::Usual, &[0, 4, 6, 0, 9, 9, 9, 9, 9, 9]));
    assert!(nest_test(Layout::Slim, &[0, 4, 4, 0]));
    assert!(nest_test(Layout::Slim, &[0, 4, 4, 0, 9, 9, 9, 9]));
}

#[test]
fn a_leaf_has_words_4_and_5_zero() {
    for layout in Layout::ALL {
        for shape in (0..256).filter(|shape| ![7, 8].contains(shape)) {
            let leaf = |first, end| [shape * 256, 9, 8, 7, first, end];
            assert!(is_nest(layout, &[leaf(0, 0)]));
            assert!(!is_nest(layout, &[leaf(1, 0)]));
            assert!(!is_nest(layout, &[leaf(0, 1)]));
            assert!(!is_nest(layout, &[leaf(1, 1)]));
        }
    }
}

/// Asserts that a record of this word 0 is a container.
fn assert_container(layout: Layout, kind: u64) {
    assert!(is_nest(layout, &[[kind, 9, 8, 7, 1, 1]]));
    assert!(!is_nest(layout, &[[kind, 9, 8, 7, 0, 0]]));
}

#[test]
fn a_container_is_told_by_the_shape_alone() {
    for layout in Layout::ALL {
        for high in [0, 1 << 16, 1 << 24, 1 << 63] {
            assert_container(layout, high + 7 * 256);
            assert_container(layout, high + 8 * 256 + 255);
        }
    }
}

#[test]
fn the_first_child_is_the_next_position() {
    for layout in Layout::ALL {
        assert!(is_nest(layout, &[LEAF, object(2, 3), LEAF]));
        for first in [0, 1, 3].into_iter().chain(layout.great()) {
            assert!(!is_nest(layout, &[LEAF, object(first, 3), LEAF]));
        }
    }
}

#[test]
fn the_end_is_not_before_the_first_child() {
    for layout in Layout::ALL {
        assert!(is_nest(layout, &[LEAF, object(2, 2), LEAF]));
        for end in [0, 1] {
            assert!(!is_nest(layout, &[LEAF, object(2, end), LEAF]));
        }
    }
}

#[test]
fn the_end_lies_in_the_parent() {
    for layout in Layout::ALL {
        for end in [4, 5].into_iter().chain(layout.great()) {
            assert!(!is_nest(layout, &[LEAF, object(2, end), LEAF]));
        }
        let inner_end = |end| is_nest(layout, &[object(1, 3), object(2, end), LEAF, LEAF]);
        assert!(inner_end(2));
        assert!(inner_end(3));
        assert!(!inner_end(4));
    }
}

#[test]
fn the_children_are_trees_again() {
    for layout in Layout::ALL {
        assert!(is_nest(layout, &[object(1, 3), LEAF, LEAF]));
        let no_leaf = [0, 0, 0, 0, 0, 1];
        assert!(!is_nest(layout, &[object(1, 3), LEAF, no_leaf]));
        assert!(!is_nest(layout, &[object(1, 3), object(3, 3), LEAF]));
    }
}

#[test]
fn four_containers_deep_is_the_most() {
    for layout in Layout::ALL {
        assert!((0..=4).all(|count| is_nest(layout, &nest(count))));
        for count in [5, 6, 3_000] {
            assert!(!is_nest(layout, &nest(count)));
        }
    }
}

#[test]
fn what_is_not_used_does_not_matter() {
    for layout in Layout::ALL {
        let mut tape = full(layout, &[LEAF, object(9, 9)]);
        assert!(!nest_test(layout, &tape));
        tape[0] = 1;
        assert!(nest_test(layout, &tape));
    }
}

#[test]
fn many_siblings_are_trees() {
    let empty: Vec<Record> = (1..=100_000).map(|next| object(next, next)).collect();
    for layout in Layout::ALL {
        assert!(is_nest(layout, &[LEAF; 100_000]));
        assert!(is_nest(layout, &empty));
    }
}
