//! Great tapes and areas on a small stack: the proved library against the model and the oracle.

use std::thread::Builder;

use compare::areas::{long_entry, long_tail, longest, tail_rows};
use compare::layout::Layout;
use compare::model::{self, After};
use compare::native::{self, Area, Outcome, Record};
use compare::shown::{MOST_OCTETS, Shown, bound};
use compare::tapes;

/// The octets of the stack on which the library runs.
const STACK: usize = 64 * 1024;

/// The number of records of a great tape.
const GREAT: u64 = 100_000;

/// What the calls give and leave.
#[derive(Debug, PartialEq)]
struct Results {
    nest: bool,
    reads: [(Record, Outcome); 2],
    cut: Outcome,
    cut_tape: Vec<u64>,
    clear: Outcome,
    cleared_tape: Vec<u64>,
}

/// What the library gives and leaves, run on a small stack.
fn by_library(layout: Layout, tape: &[u64], mark: u64) -> Results {
    let tape = tape.to_vec();
    let mut cut_tape = tape.clone();
    let mut cleared_tape = tape.clone();
    let calls = move || Results {
        nest: native::nest_test(layout, &tape),
        reads: [mark, mark - 1].map(|at| native::read(layout, &tape, at)),
        cut: native::cut_back(layout, &mut cut_tape, mark),
        cut_tape,
        clear: native::clear(layout, &mut cleared_tape),
        cleared_tape,
    };
    on_small_stack(calls)
}

/// What these calls give, run on a small stack.
fn on_small_stack<Given: Send + 'static>(calls: impl FnOnce() -> Given + Send + 'static) -> Given {
    let thread = Builder::new().stack_size(STACK).spawn(calls);
    let thread = thread.expect("a thread starts");
    thread.join().expect("the calls end")
}

/// What the model gives and leaves.
fn by_model(layout: Layout, tape: &[u64], mark: u64) -> Results {
    let cut = model::cut_back(layout, tape, mark);
    let clear = model::clear(layout, tape);
    Results {
        nest: model::nest_test(layout, tape),
        reads: [mark, mark - 1].map(|at| model::read(layout, tape, at)),
        cut: cut.outcome,
        cut_tape: cut.tape,
        clear: clear.outcome,
        cleared_tape: clear.tape,
    }
}

/// Asserts what the calls on tapes of these records give: alike in library and model, and this
/// from the nest test and from cuts to the middle and to the end.
fn assert_great(records: &[Record], nest: bool, answers: [u64; 2]) {
    let count = records.len() as u64;
    for layout in Layout::ALL {
        let tape = tapes::full(layout, records);
        for (mark, answer) in [count / 2, count].into_iter().zip(answers) {
            let given = by_library(layout, &tape, mark);
            let name = format!("{layout}, mark {mark}");
            assert_eq!((given.nest, given.cut.answer), (nest, answer), "{name}");
            assert!(given == by_model(layout, &tape, mark), "{name}");
        }
    }
}

/// A walk or a push.
type Append = fn(Layout, Area<'_>, &mut [u64]) -> Outcome;

/// What a walk or a push gives and leaves, run on a small stack.
fn append(call: Append, layout: Layout, area: Area<'_>, tape: &[u64]) -> After {
    let Area { registry, base, .. } = area;
    let (octets, mut tape) = (area.octets.to_vec(), tape.to_vec());
    on_small_stack(move || {
        let outcome = call(layout, Area::new(registry, base, &octets), &mut tape);
        After { outcome, tape }
    })
}

/// Asserts what both calls give and leave for an area of the greatest length, of these octets over
/// and over, behind another record; it needs at least so many records.
fn assert_great_area(registry: u8, octets: &[u8], least: usize) {
    let octets = longest(octets);
    let area = Area::new(registry.into(), 100, &octets);
    let shown = Shown::of(area);
    assert!(shown.needed_by_walk() >= least, "in registry {registry}");
    for layout in Layout::ALL {
        let mut tape = tapes::full(layout, &tapes::leaves(1));
        tape.resize(tape.len() + layout.record_words() * bound(MOST_OCTETS), 9);
        let name = format!("{layout}, registry {registry}");
        let walk = append(native::walk, layout, area, &tape);
        assert!(walk == shown.walk(layout, &tape), "walk: {name}");
        let push = append(native::push, layout, area, &tape);
        assert!(push == shown.push(layout, &tape), "push: {name}");
    }
}

/// Arrays in each other, as many as asked for, the innermost empty.
fn nest(count: u64) -> Vec<Record> {
    let array = |next| [7 * 256, 0, 0, 0, next, count];
    (1..=count).map(array).collect()
}

#[test]
fn many_leaves_are_no_load_on_the_stack() {
    assert_great(&tapes::leaves(GREAT), true, [0, 0]);
}

#[test]
fn many_empty_containers_are_no_load_on_the_stack() {
    let object = |next| [8 * 256, 0, 0, 0, next, next];
    let records: Vec<Record> = (1..=GREAT).map(object).collect();
    assert_great(&records, true, [0, 0]);
}

#[test]
fn many_containers_in_each_other_are_no_load_on_the_stack() {
    for count in [3_000, GREAT] {
        assert_great(&nest(count), false, [7, 0]);
    }
}

#[test]
fn four_containers_with_many_leaves_are_no_load_on_the_stack() {
    let mut records = tapes::leaves(GREAT);
    records[..4].copy_from_slice(&nest(GREAT)[..4]);
    assert_great(&records, true, [7, 0]);
}

#[test]
fn many_entries_are_no_load_on_the_stack() {
    for registry in 0..=5 {
        assert_great_area(registry, &[0, 0], 4 * 32_767);
    }
}

#[test]
fn many_records_are_no_load_on_the_stack() {
    assert_great_area(1, &[4, 1, 0xA0], bound(MOST_OCTETS));
}

#[test]
fn many_areas_inside_are_no_load_on_the_stack() {
    for row in tail_rows() {
        assert_great_area(row.registry, &long_tail(row, &[7, 0]), 100_000);
    }
    assert_great_area(2, &long_entry(25, &[0, 0], &[7, 0]), 125_000);
}

#[test]
fn many_elements_are_no_load_on_the_stack() {
    let range = [0, 0, 9, 1, 3, 0, 0, 9];
    assert_great_area(2, &long_entry(2, &[0], &range), 20_000);
    assert_great_area(2, &long_entry(19, &[], &[7]), 65_000);
    assert_great_area(2, &long_entry(23, &[], &[7]), 95_000);
}
