//! Cases of documents 01 and 02, worked out by hand.

use super::*;
use crate::tapes::{full, leaves};

/// The octets of document 01's listing.
const METRIC: [u8; 5] = [0x12, 3, 0, 0, 10];

/// The records of document 01's listing, behind so many others.
fn listing(earlier: u64) -> Vec<Record> {
    vec![
        [1796, 100, 105, 0, earlier + 1, earlier + 5],
        [2095, 100, 105, 0, earlier + 2, earlier + 5],
        [0, 100, 101, 18, 0, 0],
        [1, 101, 102, 3, 0, 0],
        [527, 102, 105, 10, 0, 0],
    ]
}

/// An area of registry 0 at this base.
fn area(base: u64, octets: &[u8]) -> Area<'_> {
    Area::new(0, base, octets)
}

/// A tape of leaves with this many words of 9 after them.
fn tape(layout: Layout, count: u64, unused: usize) -> Vec<u64> {
    [full(layout, &leaves(count)), vec![9; unused]].concat()
}

/// Asserts that both calls give this and leave the tape as it was.
fn assert_unchanged(shown: &Shown<'_>, layout: Layout, tape: &[u64], given: Outcome) {
    assert_eq!(shown.walk(layout, tape), unchanged(tape, given));
    assert_eq!(shown.push(layout, tape), unchanged(tape, given));
}

/// Asserts that both calls refuse an area with this answer, on any tape.
fn assert_refused(area: Area<'_>, answer: u64) {
    let shown = Shown::of(area);
    for layout in Layout::ALL {
        let tapes = [tape(layout, 0, 0), tape(layout, 2, 60)];
        for tape in [vec![], vec![9; 7]].into_iter().chain(tapes) {
            assert_unchanged(&shown, layout, &tape, bare(answer));
        }
    }
}

#[test]
fn the_listing_comes_behind_the_earlier_records() {
    let shown = Shown::of(area(100, &METRIC));
    for layout in Layout::ALL {
        let size = layout.record_words();
        for count in [0, 1, 7] {
            let records = [leaves(count), listing(count)].concat();
            let expected = After {
                outcome: outcome(0, 5, 5, 5),
                tape: [full(layout, &records), vec![9; 3]].concat(),
            };
            let tape = tape(layout, count, 5 * size + 3);
            assert_eq!(shown.push(layout, &tape), expected);
            assert_eq!(shown.walk(layout, &tape), expected);
        }
    }
}

#[test]
fn a_record_too_few_is_answer_5() {
    let shown = Shown::of(area(100, &METRIC));
    for (layout, words) in [(Layout::Usual, [0, 24, 29]), (Layout::Slim, [0, 16, 19])] {
        for unused in words {
            let tape = tape(layout, 2, unused);
            assert_unchanged(&shown, layout, &tape, outcome(5, 0, 0, 5));
        }
        let tape = tape(layout, 2, words[2] + 1);
        assert_eq!(shown.push(layout, &tape).outcome, outcome(0, 5, 5, 5));
    }
}

#[test]
fn a_walk_leaves_the_remainder_out() {
    let octets = [&METRIC[..], &[0x12]].concat();
    let shown = Shown::of(area(100, &octets));
    assert_eq!((shown.needed_by_walk(), shown.needed_by_push()), (5, 6));
    for (layout, raw) in [
        (Layout::Usual, &[3 + 6 * 256, 105, 106, 0, 0, 0][..]),
        (Layout::Slim, &[3 + 6 * 256, 455_266_533_481, 0, 0]),
    ] {
        let tape = tape(layout, 0, 6 * raw.len());
        let (walk, push) = (shown.walk(layout, &tape), shown.push(layout, &tape));
        assert_eq!(walk.outcome, outcome(0, 5, 5, 5));
        assert_eq!(push.outcome, outcome(0, 5, 6, 6));
        assert_eq!(walk.tape[4 + 5 * raw.len()..], vec![9; raw.len()]);
        assert_eq!(push.tape[4 + 5 * raw.len()..], *raw);
    }
}

#[test]
fn an_empty_area_needs_no_room() {
    let shown = Shown::of(area(LAST_PLACE, &[]));
    for layout in Layout::ALL {
        for tape in [tape(layout, 0, 0), tape(layout, 3, 1)] {
            assert_unchanged(&shown, layout, &tape, bare(0));
        }
    }
}

#[test]
fn a_wrong_header_is_answer_4() {
    let shown = Shown::of(area(100, &METRIC));
    for layout in Layout::ALL {
        let other = layout.other().record_words() as u64;
        let mut wrong: Vec<_> = (0..4).map(|count| vec![0; count]).collect();
        for (place, word) in [(0, 6), (0, u64::MAX), (1, 6), (2, other), (3, 1)] {
            let mut tape = tape(layout, 5, 3);
            tape[place] = word;
            wrong.push(tape);
        }
        for tape in wrong {
            assert_unchanged(&shown, layout, &tape, bare(4));
        }
    }
}

#[test]
fn records_behind_others_have_later_positions() {
    let shown = Shown::of(area(100, &METRIC));
    for earlier in [0, 1, 4_294_967_290] {
        let records: Vec<Record> = shown.records_behind(earlier).collect();
        assert_eq!(records, listing(earlier));
    }
}

#[test]
fn an_area_is_refused_by_registry_then_length_then_base() {
    let (longest, longer) = (vec![0; 65_535], vec![0; 65_536]);
    for registry in [6, 256, u64::MAX] {
        assert_refused(Area::new(registry, u64::MAX, &longer), 1);
    }
    assert_refused(area(u64::MAX, &longer), 2);
    assert_refused(area(0, &longer), 2);
    assert_refused(area(LAST_PLACE - 65_534, &longest), 3);
    assert_eq!(refusal(area(LAST_PLACE - 65_535, &longest)), None);
}

#[test]
fn the_bound_is_that_of_document_01() {
    assert_eq!([1, 2, 3, 6].map(bound), [3, 5, 8, 15]);
    assert_eq!(bound(0), 0);
}

#[test]
fn the_limit_of_the_base_is_that_of_document_01() {
    assert_eq!(refusal(area(4_294_967_290, &METRIC)), None);
    assert_refused(area(4_294_967_290, &[0; 6]), 3);
    assert_refused(area(LAST_PLACE + 1, &[]), 3);
    assert_refused(area(u64::MAX, &[]), 3);
    assert_refused(area(u64::MAX, &[0]), 3);
    assert_refused(area(u64::MAX - 4, &METRIC), 3);
}
