//! Refusals of walk and push, 1 to 5: each exactly when document 01 says, and in its order.

use compare::agree::{Call, Tally};
use compare::areas::over_and_over;
use compare::layout::Layout;
use compare::model::bare;
use compare::native::{self, Area, Outcome};
use compare::random::Random;
use compare::shown::{LAST_PLACE, MOST_OCTETS, Shown, outcome};
use compare::tapes;

/// The octets of document 01's listing, which need 5 records.
const METRIC: [u8; 5] = [0x12, 3, 0, 0, 10];

/// The records that they need.
const NEEDED: usize = 5;

/// Numbers of registries, and numbers that are none.
const REGISTRIES: [u64; 12] = [
    0,
    1,
    2,
    3,
    4,
    5,
    6,
    7,
    256,
    (1 << 32) + 1,
    1 << 63,
    u64::MAX,
];

/// Lengths of areas, around both ends of what is taken.
const LENGTHS: [usize; 7] = [
    0,
    1,
    5,
    MOST_OCTETS - 1,
    MOST_OCTETS,
    MOST_OCTETS + 1,
    2 * MOST_OCTETS,
];

/// Places of the header, and words that are wrong there.
fn wrong_words(layout: Layout) -> [(usize, u64); 10] {
    let size = layout.record_words() as u64;
    let other = layout.other().record_words() as u64;
    [
        (0, 8),
        (0, 1 << 32),
        (0, u64::MAX),
        (1, 5),
        (1, 4 + (1 << 32)),
        (2, other),
        (2, size + (1 << 63)),
        (3, 1),
        (3, 1 << 32),
        (3, u64::MAX),
    ]
}

/// Bases for an area of this length: small, around the limit, and where a sum may overflow.
fn bases(length: u64) -> [u64; 11] {
    let greatest = LAST_PLACE - length;
    [
        0,
        100,
        greatest - 1,
        greatest,
        greatest + 1,
        LAST_PLACE,
        LAST_PLACE + 1,
        1 << 63,
        u64::MAX - length,
        (u64::MAX - length).wrapping_add(1),
        u64::MAX,
    ]
}

/// Tapes with no room, with room around what a walk and a push need, with part of a header, and
/// with a wrong header.
fn some_tapes(random: &mut Random, layout: Layout, shown: &Shown<'_>) -> Vec<Vec<u64>> {
    let needed = [shown.needed_by_walk(), shown.needed_by_push()];
    let near = needed.map(|needed| [needed.saturating_sub(1), needed, needed + 1]);
    let rooms = [0].into_iter().chain(near.into_iter().flatten());
    let mut all: Vec<_> = rooms
        .map(|room| tapes::with_room(random, layout, &tapes::leaves(2), room))
        .collect();
    all.extend((0..4).map(|count| layout.header(0)[..count].to_vec()));
    for (place, word) in wrong_words(layout) {
        let mut tape = tapes::with_room(random, layout, &tapes::leaves(2), NEEDED);
        tape[place] = word;
        all.push(tape);
    }
    all
}

/// Compares both calls on all of these tapes.
fn compare_tapes(tally: &mut Tally, random: &mut Random, shown: &Shown<'_>) {
    for tape in some_tapes(random, tally.layout(), shown) {
        tally.walk(shown, &tape);
        tally.push(shown, &tape);
    }
}

/// Asserts what both calls give, and that the tape stays where they are refused.
fn assert_both(layout: Layout, area: Area<'_>, tape: &[u64], expected: Outcome) {
    for call in [native::walk, native::push] {
        let mut lent = tape.to_vec();
        assert_eq!(call(layout, area, &mut lent), expected, "{layout}, {area}");
        assert!(expected.answer == 0 || lent == tape, "{layout}, {area}");
    }
}

/// What document 01 has both calls give, where these of its conditions for 1 to 5 hold.
fn first_of(holds: [bool; 5]) -> Outcome {
    match holds.iter().position(|holds| *holds) {
        None => outcome(0, 5, 5, 5),
        Some(4) => outcome(5, 0, 0, 5),
        Some(place) => bare(place as u64 + 1),
    }
}

/// Asserts what both calls give where exactly these conditions hold.
fn assert_first_of(layout: Layout, holds: [bool; 5]) {
    let [registry, length, base, header, room] = holds;
    let octets = if length {
        vec![0; 65_536]
    } else {
        METRIC.into()
    };
    let room = if room { NEEDED - 1 } else { NEEDED };
    let mut tape = layout.header(0).to_vec();
    tape[2] += u64::from(header);
    tape.resize(4 + layout.record_words() * room, 9);
    let registry = if registry { 6 } else { 0 };
    let base = if base { LAST_PLACE } else { 100 };
    let area = Area::new(registry, base, &octets);
    assert_both(layout, area, &tape, first_of(holds));
}

#[test]
fn the_first_condition_that_holds_gives_the_answer() {
    for layout in Layout::ALL {
        for choice in 0..32 {
            let holds = [0, 1, 2, 3, 4].map(|place| choice >> place & 1 == 1);
            assert_first_of(layout, holds);
        }
    }
}

#[test]
fn the_answers_of_document_01_come_out() {
    let area = |base, octets| Area::new(0, base, octets);
    let at_the_limit = 4_294_967_290;
    for layout in Layout::ALL {
        let tape = |room| tapes::with_room(&mut Random::new(1), layout, &[], room);
        let done = outcome(0, 5, 5, 5);
        assert_both(layout, area(100, &METRIC), &tape(4), outcome(5, 0, 0, 5));
        assert_both(layout, area(100, &METRIC), &tape(5), done);
        assert_both(layout, area(at_the_limit, &METRIC), &tape(9), done);
        assert_both(layout, area(at_the_limit, &[0; 6]), &tape(9), bare(3));
    }
}

/// Compares both calls on areas of this length, at every base and in every registry of the lists.
fn compare_length(tally: &mut Tally, random: &mut Random, octets: &[u8]) {
    for base in bases(octets.len() as u64) {
        for registry in REGISTRIES {
            let shown = Shown::of(Area::new(registry, base, octets));
            compare_tapes(tally, random, &shown);
        }
    }
}

#[test]
fn every_choice_near_a_limit_is_answered_as_document_01_says() {
    let octets = over_and_over(&[0, 255, 0x12, 3], 2 * MOST_OCTETS);
    for mut tally in Tally::in_each_layout() {
        let mut random = Random::of_this_run();
        for length in LENGTHS {
            compare_length(&mut tally, &mut random, &octets[..length]);
        }
        tally.assert_calls(38_000);
        for call in [Call::Walk, Call::Push] {
            tally.assert_answers(call, &[0, 1, 2, 3, 4, 5], 190);
        }
    }
}

#[test]
fn every_registry_from_6_on_is_refused() {
    for mut tally in Tally::in_each_layout() {
        let tape = tapes::full(tally.layout(), &[]);
        for registry in (0..=1_000).chain((10..64).map(|bit| 1 << bit)) {
            let shown = Shown::of(Area::new(registry, 0, &[]));
            tally.walk(&shown, &tape);
            tally.push(&shown, &tape);
        }
        tally.assert_answers(Call::Walk, &[1], 1_049);
        tally.assert_answers(Call::Push, &[1], 1_049);
        tally.assert_calls(2_110);
    }
}

/// Asserts what both calls give where they are lent nothing.
fn assert_nothing(layout: Layout, registry: u64, base: u64, answer: u64) {
    let given = native::walk_nothing(layout, registry, base);
    assert_eq!(given, bare(answer), "{layout} walk");
    let given = native::push_nothing(layout, registry, base);
    assert_eq!(given, bare(answer), "{layout} push");
}

/// Asserts that both calls are done where they are lent no octets, and that the tape stays.
fn assert_no_octets(layout: Layout, registry: u64) {
    let mut tape = tapes::full(layout, &tapes::leaves(2));
    let before = tape.clone();
    let given = native::walk_no_octets(layout, registry, 100, &mut tape);
    assert_eq!(given, bare(0), "{layout} walk");
    let given = native::push_no_octets(layout, registry, 100, &mut tape);
    assert_eq!(given, bare(0), "{layout} push");
    assert_eq!(tape, before);
}

#[test]
fn null_pointers_of_length_0_are_taken() {
    for layout in Layout::ALL {
        assert_nothing(layout, 0, 0, 4);
        assert_nothing(layout, 5, LAST_PLACE, 4);
        assert_nothing(layout, 6, 0, 1);
        assert_nothing(layout, 0, u64::MAX, 3);
        (0..=5).for_each(|registry| assert_no_octets(layout, registry));
    }
}
