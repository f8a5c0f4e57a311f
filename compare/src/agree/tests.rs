//! What the comparison sees, and that it counts.

use super::*;
use crate::shown::outcome;

/// An area of one octet.
const LONE_OCTET: Area<'_> = Area {
    registry: 0,
    base: 100,
    octets: &[0x12],
};

/// Asserts that a call on four words gives 0 and leaves them as they are.
fn assert_idle(call: impl Fn(&mut [u64]) -> Outcome) {
    let expected = After {
        outcome: model::bare(0),
        tape: vec![5, 6, 7, 8],
    };
    let call = |_, lent: &mut [u64]| call(lent);
    let name = format_args!("the call");
    assert_change(name, Layout::Usual, &[5, 6, 7, 8], &expected, call);
}

#[test]
fn a_call_that_is_as_expected_passes() {
    assert_idle(|_| model::bare(0));
}

#[test]
#[should_panic(expected = "the call")]
fn an_answer_that_is_not_expected_is_seen() {
    assert_idle(|_| model::bare(7));
}

#[test]
#[should_panic(expected = "the call")]
fn a_word_that_is_not_expected_is_seen() {
    assert_idle(|lent| {
        lent[3] += 1;
        model::bare(0)
    });
}

#[test]
fn calls_are_counted() {
    for mut tally in Tally::in_each_layout() {
        tally.every_call(&tally.layout().header(0), &[0, 1]);
        tally.assert_answers(Call::CutBack, &[0, 6], 1);
        assert_eq!((tally.calls(), tally.calls_of(Call::CutBack)), (6, 2));
    }
}

#[test]
fn a_tally_has_the_layout_that_is_asked_for() {
    let layouts = Tally::in_each_layout().map(|tally| tally.layout());
    assert_eq!(layouts, [Layout::Usual, Layout::Slim]);
    for mut tally in Tally::in_each_layout() {
        tally.nest_test(&[0, 4, 4, 0]);
        let yes = u64::from(tally.layout() == Layout::Slim);
        tally.assert_answers(Call::NestTest, &[yes], 1);
    }
}

#[test]
#[should_panic(expected = "1 calls")]
fn too_few_calls_are_seen() {
    let mut tally = Tally::of(Layout::Usual);
    tally.clear(&[0, 4, 6, 0]);
    tally.assert_calls(2);
}

#[test]
#[should_panic(expected = "usual Read gave 8 0 times")]
fn an_answer_that_was_not_met_is_seen() {
    let mut tally = Tally::of(Layout::Usual);
    tally.read(&[0, 4, 6, 0], 0);
    tally.assert_answers(Call::Read, &[6, 8], 1);
}

#[test]
fn every_room_has_answers_0_and_5() {
    let wanted = [
        ((Call::Walk, 0), 2),
        ((Call::Walk, 5), 1),
        ((Call::Push, 0), 2),
        ((Call::Push, 5), 2),
    ];
    for mut tally in Tally::in_each_layout() {
        let shown = Shown::of(LONE_OCTET);
        tally.every_room(&mut Random::new(1), &shown, &tapes::leaves(2));
        assert_eq!(tally.counts, BTreeMap::from(wanted));
        assert_eq!(tally.calls(), 7);
    }
}

/// Asserts that a call appends what a push of one octet appends.
fn assert_push(layout: Layout, call: fn(Layout, Area<'_>, &mut [u64]) -> Outcome) {
    let tape = tapes::with_room(&mut Random::new(1), layout, &tapes::leaves(1), 3);
    let expected = Shown::of(LONE_OCTET).push(layout, &tape);
    let name = format_args!("the push");
    assert_append(name, layout, call, LONE_OCTET, &tape, &expected);
}

#[test]
fn a_push_that_is_as_expected_passes() {
    for layout in Layout::ALL {
        assert_push(layout, native::push);
    }
}

#[test]
#[should_panic(expected = "the push")]
fn a_walk_in_place_of_a_push_is_seen() {
    assert_push(Layout::Slim, native::walk);
}

#[test]
#[should_panic(expected = "the push")]
fn a_push_in_the_other_layout_is_seen() {
    assert_push(Layout::Slim, |layout, area, tape| {
        native::push(layout.other(), area, tape)
    });
}

#[test]
#[should_panic(expected = "the push")]
fn a_wrong_number_is_seen() {
    assert_push(Layout::Usual, |layout, area, tape| {
        native::push(layout, area, tape);
        outcome(0, 1, 2, 2)
    });
}
