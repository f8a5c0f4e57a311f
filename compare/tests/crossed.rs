//! Tapes of one layout, given to the calls of the other.

use compare::agree::{Call, Tally};
use compare::areas;
use compare::layout::Layout;
use compare::model::{bare, used_records};
use compare::native::{self, Area};
use compare::random::Random;
use compare::shown::Shown;
use compare::tapes;

/// The number of tapes of each layout.
const TAPES: u64 = 3_000;

/// The octets of document 01's listing, which need 5 records.
const METRIC: [u8; 5] = [0x12, 3, 0, 0, 10];

/// A random tape that the calls of this layout take.
fn sound_tape(random: &mut Random, layout: Layout) -> Vec<u64> {
    let deep = random.below(6);
    let records = match random.below(4) {
        0 => Vec::new(),
        1 => vec![tapes::any_record(random, layout)],
        _ => tapes::forest(random, layout, 12, deep),
    };
    let room = random.below(40) as usize;
    tapes::with_room(random, layout, &records, room)
}

/// Compares every call on a tape of the other layout.
fn compare_crossed(tally: &mut Tally, random: &mut Random) {
    let tape = sound_tape(random, tally.layout().other());
    let arguments = tapes::arguments(random, tally.layout(), &tape);
    tally.every_call(&tape, &arguments);
    let registry = random.below(6);
    let octets = areas::area(random, registry as u8);
    let shown = Shown::of(Area::new(registry, 100, &octets));
    tally.walk(&shown, &tape);
    tally.push(&shown, &tape);
}

/// Asserts that a call gave this answer every time.
fn assert_always(tally: &Tally, call: Call, answer: u64) {
    let count = tally.calls_of(call);
    assert!(count >= TAPES, "{call:?} {count} times");
    tally.assert_answers(call, &[answer], count);
}

#[test]
fn a_tape_of_the_other_layout_is_refused_by_all_but_clear() {
    for mut tally in Tally::in_each_layout() {
        let mut random = Random::of_this_run();
        (0..TAPES).for_each(|_| compare_crossed(&mut tally, &mut random));
        tally.assert_calls(44 * TAPES);
        for call in [Call::CutBack, Call::Read, Call::Walk, Call::Push] {
            assert_always(&tally, call, 4);
        }
        assert_always(&tally, Call::NestTest, 0);
        assert_always(&tally, Call::Clear, 0);
    }
}

/// Asserts that no call of this layout but clear takes a tape, and that the tape stays.
fn assert_refused(layout: Layout, tape: &mut [u64]) {
    let before = tape.to_vec();
    let area = Area::new(0, 100, &METRIC);
    assert_eq!(native::walk(layout, area, tape), bare(4));
    assert_eq!(native::push(layout, area, tape), bare(4));
    assert_eq!(native::cut_back(layout, tape, 0), bare(4));
    assert_eq!(native::read(layout, tape, 0), ([0; 6], bare(4)));
    assert!(!native::nest_test(layout, tape));
    assert_eq!(tape, before);
}

/// Asserts that a clear makes of a tape of the other layout an empty one of this layout.
fn assert_cleared(random: &mut Random, layout: Layout) {
    let mut tape = sound_tape(random, layout.other());
    tape.resize(tape.len() + 30, 9);
    assert_refused(layout, &mut tape);
    assert_eq!(native::clear(layout, &mut tape), bare(0));
    assert_eq!(tape[..4], layout.header(0));
    assert!(native::nest_test(layout, &tape));
    assert_refused(layout.other(), &mut tape);
    let pushed = native::push(layout, Area::new(0, 100, &METRIC), &mut tape);
    assert_eq!((pushed.answer, pushed.written), (0, 5));
    let records = used_records(layout, &tape).map(|records| records.len());
    assert_eq!(records, Some(5));
    assert_refused(layout.other(), &mut tape);
}

#[test]
fn a_clear_makes_a_tape_one_of_its_own_layout() {
    for layout in Layout::ALL {
        let mut random = Random::of_this_run();
        (0..TAPES).for_each(|_| assert_cleared(&mut random, layout));
    }
}
