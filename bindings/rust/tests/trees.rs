//! Going over the records of a tape, in both layouts.

mod shared;

use shared::{in_both_layouts, put, tape_of};
use wakkemosut::{Label, Layout, Position, Record, Refusal, Registry, Tape, most_records};

/// A prefix with an SRv6 End SID whose structure is inside, an entry of no meaning and a tail.
const AREA: [u8; 35] = [
    0x05, 0x1A, 0x00, 0x00, 0x01, 0x20, 0x01, 0x0D, 0xB8, 0x00, 0x01, 0x00, 0x02, 0x00, 0x00, 0x00,
    0x00, 0x00, 0x00, 0x00, 0x00, 0x06, 0x01, 0x04, 0x20, 0x10, 0x10, 0x00, 0xFF, 0x03, 0x01, 0x02,
    0x03, 0xFF, 0x01,
];

/// A tape's words with room for the area twice, the area pushed onto it once.
fn pushed<L: Layout>() -> Vec<u64> {
    let room = 2 * most_records(AREA.len());
    let mut words = vec![u64::MAX; Tape::<L>::words_in_layout(room)];
    let mut tape = Tape::<L>::cleared_in_layout(&mut words).unwrap();
    tape.push(Registry::Prefix, 0, &AREA).unwrap();
    words
}

/// The six words of a leaf.
const LEAF: [u64; 6] = [0; 6];

/// The six words of an array whose children begin and end at these positions.
fn array(first_child: u64, children_end: u64) -> [u64; 6] {
    [256 * 7, 0, 0, 0, first_child, children_end]
}

/// The positions of records.
fn positions<'tape, L: Layout>(
    records: impl Iterator<Item = Result<Record<'tape, L>, Refusal>>,
) -> Vec<u64> {
    records.map(|record| record.unwrap().position.0).collect()
}

/// The positions of all records inside these, in the order of going down.
fn all_inside<'tape, L: Layout>(
    records: impl Iterator<Item = Result<Record<'tape, L>, Refusal>>,
    found: &mut Vec<u64>,
) {
    for record in records.map(Result::unwrap) {
        found.push(record.position.0);
        all_inside(record.children(), found);
    }
}

in_both_layouts! {
    children_do_not_count_what_is_inside_them,
    going_down_finds_every_record_once_and_in_order,
    trees_start_where_they_are_asked_to,
    a_record_finds_its_octets,
    a_record_that_cannot_be_read_ends_the_row,
    a_row_ends_on_any_words,
    a_leaf_has_no_children_whatever_its_words,
    no_record_is_its_own_child,
    children_stand_behind_their_container,
    children_end_where_the_container_around_theirs_does,
    children_of_a_record_of_a_row_end_where_the_row_does,
    children_end_where_the_records_do,
    a_record_that_its_owner_changed_keeps_to_the_tape,
    what_is_cut_off_makes_room,
}

fn children_do_not_count_what_is_inside_them<L: Layout>() {
    let mut words = pushed::<L>();
    let tape = Tape::<L>::in_layout(&mut words);
    assert_eq!(positions(tape.trees_from(Position(0))), [0, 19]);
    let array = tape.read(Position(0)).unwrap();
    assert_eq!(positions(array.children()), [1, 15]);
    let entry = tape.read(Position(1)).unwrap();
    assert_eq!(positions(entry.children()), [2, 3, 4, 5, 6, 7]);
    let inner = tape.read(Position(7)).unwrap();
    assert_eq!(inner.registry, Registry::Srv6Sid);
    assert_eq!(positions(inner.children()), [8]);
    assert_eq!(tape.read(Position(2)).unwrap().children().count(), 0);
}

fn going_down_finds_every_record_once_and_in_order<L: Layout>() {
    let mut words = pushed::<L>();
    let mut tape = Tape::<L>::in_layout(&mut words);
    tape.push(Registry::Prefix, 500, &AREA).unwrap();
    let mut found = Vec::new();
    all_inside(tape.trees_from(Position(0)), &mut found);
    assert!(found.into_iter().eq(0..40));
}

fn trees_start_where_they_are_asked_to<L: Layout>() {
    let mut words = pushed::<L>();
    let mut tape = Tape::<L>::in_layout(&mut words);
    let mark = tape.mark();
    assert_eq!(tape.trees_from(mark).count(), 0);
    tape.push(Registry::Prefix, 500, &AREA).unwrap();
    assert_eq!(positions(tape.trees_from(mark)), [20, 39]);
    let octets = tape.trees_from(mark).map(|tree| tree.unwrap().octets);
    assert!(octets.eq([500..533, 533..535]));
}

fn a_record_finds_its_octets<L: Layout>() {
    let mut words = pushed::<L>();
    let tape = Tape::<L>::in_layout(&mut words);
    let raw = tape.read(Position(19)).unwrap();
    assert_eq!(raw.label, Label::Raw);
    assert_eq!(raw.octets_in(&AREA, 0), Some(&AREA[33..]));
    assert_eq!(raw.octets_in(&AREA[..34], 0), None);
    assert_eq!(raw.octets_in(&AREA, 34), None);
    assert_eq!(raw.octets_in(&AREA, u64::MAX), None);
}

fn a_record_that_cannot_be_read_ends_the_row<L: Layout>() {
    let mut words = pushed::<L>();
    words[Tape::<L>::words_in_layout(3)] = 57;
    let tape = Tape::<L>::in_layout(&mut words);
    let entry = tape.read(Position(1)).unwrap();
    let children: Vec<_> = entry.children().collect();
    assert_eq!(children.len(), 2);
    assert_eq!(children[0].as_ref().unwrap().position, Position(2));
    assert_eq!(children[1].as_ref().err(), Some(&Refusal::NoRecord));
}

fn a_row_ends_on_any_words<L: Layout>() {
    let low = [0, 1, 2, 19, 20, 21, u64::MAX - 1, u64::MAX];
    for wrong in low.into_iter().chain(low.map(|word| word << 32)) {
        for word in 4..Tape::<L>::words_in_layout(20) {
            let mut words = pushed::<L>();
            words[word] = wrong;
            let tape = Tape::<L>::in_layout(&mut words);
            assert!(tape.trees_from(Position(0)).take(21).count() <= 20);
            for record in (0..20).flat_map(|at| tape.read(Position(at))) {
                let children = record.children().take(21).count();
                assert!(children <= 20, "{wrong} at {word}: {record:?}");
            }
        }
    }
}

fn a_leaf_has_no_children_whatever_its_words<L: Layout>() {
    let mut words = pushed::<L>();
    put::<L>(&mut words, 2, [65_536, 0, 1, 5, 3, 20]);
    let tape = Tape::<L>::in_layout(&mut words);
    let leaf = tape.read(Position(2)).unwrap();
    assert_eq!(leaf.descendants, Position(3)..Position(20));
    assert_eq!(leaf.children().count(), 0);
}

fn no_record_is_its_own_child<L: Layout>() {
    let mut words = tape_of::<L>(&[array(0, 1)]);
    let tape = Tape::<L>::in_layout(&mut words);
    let own = tape.read(Position(0)).unwrap();
    assert_eq!(own.descendants, Position(0)..Position(1));
    assert_eq!(own.words(), array(0, 1));
    assert_eq!(own.children().count(), 0);
    let mut found = Vec::new();
    all_inside(tape.trees_from(Position(0)), &mut found);
    assert_eq!(found, [0]);
}

fn children_stand_behind_their_container<L: Layout>() {
    for (first_child, children) in [(0, [2, 3]), (1, [2, 3]), (2, [2, 3])] {
        let mut words = tape_of::<L>(&[LEAF, array(first_child, 4), LEAF, LEAF, LEAF]);
        let tape = Tape::<L>::in_layout(&mut words);
        let container = tape.read(Position(1)).unwrap();
        assert_eq!(positions(container.children()), children, "{first_child}");
        assert_eq!(positions(tape.trees_from(Position(0))), [0, 1, 4]);
    }
    let mut words = tape_of::<L>(&[LEAF, array(3, 4), LEAF, LEAF, LEAF]);
    let tape = Tape::<L>::in_layout(&mut words);
    let container = tape.read(Position(1)).unwrap();
    assert_eq!(positions(container.children()), [3]);
}

fn children_end_where_the_container_around_theirs_does<L: Layout>() {
    let mut words = tape_of::<L>(&[array(1, 4), array(2, 6), array(3, 6), LEAF, LEAF, LEAF]);
    let tape = Tape::<L>::in_layout(&mut words);
    let mut found = Vec::new();
    all_inside(tape.trees_from(Position(0)), &mut found);
    assert_eq!(found, [0, 1, 2, 3, 4, 5]);
    let outer = tape.read(Position(0)).unwrap();
    let middle = outer.children().next().unwrap().unwrap();
    assert_eq!(middle.descendants, Position(2)..Position(6));
    assert_eq!(positions(middle.children()), [2]);
    let inner = middle.children().next().unwrap().unwrap();
    assert_eq!(positions(inner.children()), [3]);
    let alone = tape.read(Position(1)).unwrap();
    assert_eq!(positions(alone.children()), [2]);
    let alone = tape.read(Position(2)).unwrap();
    assert_eq!(positions(alone.children()), [3, 4, 5]);
}

fn children_of_a_record_of_a_row_end_where_the_row_does<L: Layout>() {
    let mut words = tape_of::<L>(&[array(1, 3), LEAF, array(3, 4), LEAF]);
    let tape = Tape::<L>::in_layout(&mut words);
    let outer = tape.trees_from(Position(0)).next().unwrap().unwrap();
    assert_eq!(positions(outer.children()), [1, 2]);
    let last = outer.children().last().unwrap().unwrap();
    assert_eq!(last.children().count(), 0);
    let top = tape.trees_from(Position(2)).next().unwrap().unwrap();
    assert_eq!(positions(top.children()), [3]);
    assert_eq!(top, last);
}

fn children_end_where_the_records_do<L: Layout>() {
    let mut words = tape_of::<L>(&[array(1, 0xFFFF_FFFF), LEAF, LEAF]);
    words[0] = 2;
    let tape = Tape::<L>::in_layout(&mut words);
    for container in [
        tape.read(Position(0)),
        tape.records().next().unwrap(),
        tape.trees_from(Position(0)).next().unwrap(),
    ] {
        assert_eq!(positions(container.unwrap().children()), [1]);
    }
    assert_eq!(positions(tape.trees_from(Position(0))), [0]);
}

fn a_record_that_its_owner_changed_keeps_to_the_tape<L: Layout>() {
    let mut words = tape_of::<L>(&[array(1, 2), LEAF, LEAF]);
    let tape = Tape::<L>::in_layout(&mut words);
    let mut container = tape.read(Position(0)).unwrap();
    container.descendants = Position(0)..Position(u64::MAX);
    assert_eq!(positions(container.children()), [1, 2]);
    container.position = Position(u64::MAX);
    assert_eq!(container.children().count(), 0);
}

fn what_is_cut_off_makes_room<L: Layout>() {
    let mut words = vec![0; Tape::<L>::words_in_layout(20)];
    let mut tape = Tape::<L>::cleared_in_layout(&mut words).unwrap();
    for _ in 0..3 {
        tape.push(Registry::Prefix, 0, &AREA).unwrap();
        assert_eq!(tape.mark(), Position(20));
        let records = tape.words()[4..].to_vec();
        tape.cut_back(Position(0)).unwrap();
        assert_eq!((tape.mark(), tape.nests()), (Position(0), true));
        assert_eq!(tape.words()[4..], records);
    }
}
