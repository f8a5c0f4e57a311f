//! All records of a tape, their count, and when two are equal, in both layouts.

mod shared;

use shared::{in_both_layouts, put, tape_of};
use wakkemosut::{Layout, Position, Record, Refusal, Registry, Slim, Tape, Usual};

/// The octets of a metric of 10.
const METRIC: [u8; 5] = [0x12, 0x03, 0x00, 0x00, 0x0A];

/// The words of a tape with the records of a metric at base 100, and room for two more.
fn metric<L: Layout>() -> Vec<u64> {
    let mut words = vec![u64::MAX; Tape::<L>::words_in_layout(7)];
    let mut tape = Tape::<L>::cleared_in_layout(&mut words).unwrap();
    tape.push(Registry::Neighbor, 100, &METRIC).unwrap();
    words
}

/// The positions of these records, or their refusals.
fn positions<'tape, L: Layout>(
    records: impl Iterator<Item = Result<Record<'tape, L>, Refusal>>,
) -> Vec<Result<u64, Refusal>> {
    records.map(|record| Ok(record?.position.0)).collect()
}

/// Asserts that there are so many records by all that counts them.
fn assert_count<L: Layout>(words: &[u64], count: usize) {
    let mut words = words.to_vec();
    let tape = Tape::<L>::in_layout(&mut words);
    assert_eq!(tape.mark(), Position(count as u64), "{:?}", tape.words());
    assert_eq!(tape.len(), count, "{:?}", tape.words());
    assert_eq!(tape.is_empty(), count == 0, "{:?}", tape.words());
    assert_eq!(tape.records().len(), count, "{:?}", tape.words());
    assert_eq!(tape.records().count(), count, "{:?}", tape.words());
    assert_eq!(tape.trees_from(Position(0)).next().is_none(), count == 0);
}

in_both_layouts! {
    a_tape_has_as_many_records_as_were_written,
    words_that_are_no_tape_have_no_records,
    records_are_counted_up_to_the_room,
    records_come_in_the_order_of_their_positions,
    a_record_that_cannot_be_read_does_not_hide_the_next_ones,
    records_that_show_the_same_are_equal,
    records_that_differ_are_not_equal,
}

fn a_tape_has_as_many_records_as_were_written<L: Layout>() {
    let mut words = metric::<L>();
    assert_count::<L>(&words, 5);
    let mut tape = Tape::<L>::in_layout(&mut words);
    tape.push(Registry::Neighbor, 105, &[0xFF]).unwrap();
    assert_count::<L>(tape.words(), 7);
    tape.cut_back(Position(5)).unwrap();
    assert_count::<L>(tape.words(), 5);
    tape.clear().unwrap();
    assert_count::<L>(tape.words(), 0);
    assert_count::<L>(&tape.words()[..4], 0);
}

fn words_that_are_no_tape_have_no_records<L: Layout>() {
    let tape = metric::<L>();
    for length in 0..4 {
        assert_count::<L>(&tape[..length], 0);
    }
    for (at, wrong) in [
        (1, 5),
        (1, 3),
        (2, 5),
        (2, 7),
        (2, 0),
        (3, 1),
        (3, u64::MAX),
    ] {
        let mut words = tape.clone();
        words[at] = wrong;
        assert_count::<L>(&words, 0);
    }
    assert_count::<L>(&[u64::MAX; 40], 0);
    assert_count::<L>(&[1; 40], 0);
}

fn records_are_counted_up_to_the_room<L: Layout>() {
    for (used, count) in [(6, 6), (7, 7), (8, 0), (1 << 32, 0), (u64::MAX, 0)] {
        let mut words = metric::<L>();
        words[0] = used;
        assert_count::<L>(&words, count);
        words.extend([0; 3]);
        assert_count::<L>(&words, count);
    }
    assert_count::<L>(&metric::<L>()[..Tape::<L>::words_in_layout(5)], 5);
    assert_count::<L>(&metric::<L>()[..Tape::<L>::words_in_layout(5) - 1], 0);
}

#[test]
fn a_tape_of_the_other_layout_has_no_records() {
    assert_count::<Usual>(&metric::<Slim>(), 0);
    assert_count::<Slim>(&metric::<Usual>(), 0);
}

fn records_come_in_the_order_of_their_positions<L: Layout>() {
    let mut words = metric::<L>();
    let tape = Tape::<L>::in_layout(&mut words);
    assert_eq!(positions(tape.records()), [0, 1, 2, 3, 4].map(Ok));
    assert_eq!(positions(tape.records().rev()), [4, 3, 2, 1, 0].map(Ok));
    let mut records = tape.records();
    for left in (0..5).rev() {
        assert!(records.next().is_some());
        assert_eq!(records.size_hint(), (left, Some(left)));
    }
    assert!(records.next().is_none() && records.next_back().is_none());
    let numbers = tape.records().map(|record| record.unwrap().number);
    assert!(numbers.eq([0, 0, 18, 3, 10]));
}

fn a_record_that_cannot_be_read_does_not_hide_the_next_ones<L: Layout>() {
    let mut words = metric::<L>();
    put::<L>(&mut words, 1, [57, 0, 0, 0, 0, 0]);
    put::<L>(&mut words, 4, [0, 1, 0, 0, 0, 0]);
    let tape = Tape::<L>::in_layout(&mut words);
    let none = Err(Refusal::NoRecord);
    assert_eq!(positions(tape.records()), [Ok(0), none, Ok(2), Ok(3), none]);
    assert_eq!(tape.records().len(), 5);
}

fn records_that_show_the_same_are_equal<L: Layout>() {
    let (mut words, mut usual, mut slim) = (metric::<L>(), metric::<Usual>(), metric::<Slim>());
    let tape = Tape::<L>::in_layout(&mut words);
    let (usual, slim) = (Tape::over(&mut usual), Tape::slim_over(&mut slim));
    for record in tape.records().map(Result::unwrap) {
        assert_eq!(record, record.clone());
        assert_eq!(record, usual.read(record.position).unwrap());
        assert_eq!(record, slim.read(record.position).unwrap());
    }
    let array = tape.read(Position(0)).unwrap();
    assert_eq!(array.children().next(), Some(tape.read(Position(1))));
}

fn records_that_differ_are_not_equal<L: Layout>() {
    let own = [256 * 2 + 15, 102, 105, 10, 0, 0];
    let others = [
        [256 * 2 + 16, 102, 105, 10, 0, 0],
        [256 * 3 + 15, 102, 105, 10, 0, 0],
        [65_536 + 256 * 2 + 15, 102, 105, 10, 0, 0],
        [256 * 2 + 15, 101, 105, 10, 0, 0],
        [256 * 2 + 15, 102, 104, 10, 0, 0],
        [256 * 2 + 15, 102, 105, 11, 0, 0],
        [256 * 2 + 15, 102, 105, 10, 1, 0],
        [256 * 2 + 15, 102, 105, 10, 0, 1],
    ];
    let mut words = tape_of::<L>(&[own, own]);
    let tape = Tape::<L>::in_layout(&mut words);
    let record = tape.read(Position(0)).unwrap();
    assert_ne!(record, tape.read(Position(1)).unwrap());
    for other in others {
        let (mut usual, mut slim) = (tape_of::<Usual>(&[other]), tape_of::<Slim>(&[other]));
        assert_ne!(record, Tape::over(&mut usual).read(Position(0)).unwrap());
        assert_ne!(
            record,
            Tape::slim_over(&mut slim).read(Position(0)).unwrap()
        );
    }
}
