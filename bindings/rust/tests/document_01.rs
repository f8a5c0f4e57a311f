//! The examples of document 01, section "Octets and what they become", through the wrapper, in
//! both layouts.

mod shared;

use shared::{in_both_layouts, put};
use wakkemosut::{
    Label, Laid, Layout, Position, Record, Refusal, Registry, Shape, Tape, mask_prefix,
    most_records,
};

/// The base of the examples.
const BASE: u64 = 100;

/// The most records of an example.
const ROOM: usize = 16;

/// The octets of the third case.
const METRIC: [u8; 5] = [0x12, 0x03, 0x00, 0x00, 0x0A];

/// Words for a tape with room for any example, none of them 0.
fn words<L: Layout>() -> Vec<u64> {
    vec![u64::MAX; Tape::<L>::words_in_layout(ROOM)]
}

/// The octets of a hex text.
fn octets(hex: &str) -> Vec<u8> {
    let pairs = hex.split_whitespace();
    pairs
        .map(|pair| u8::from_str_radix(pair, 16).expect("two hex digits"))
        .collect()
}

/// Pushes a hex text onto an empty tape with just the room for it, and hands the tape to a look at
/// it. Asserts the octets covered, the count of records, that they nest, and all words.
fn assert_push<L: Layout>(
    registry: Registry,
    hex: &str,
    covered: u64,
    count: u64,
    look: impl Fn(&Tape<'_, L>),
) {
    let mut words = words::<L>();
    let one_short = Tape::<L>::words_in_layout(count as usize + 1) - 1;
    let (lent, beside) = words.split_at_mut(one_short);
    let mut tape = Tape::<L>::cleared_in_layout(lent).unwrap();
    let laid = Laid {
        covered,
        written: count,
        needed: count,
    };
    assert_eq!(tape.push(registry, BASE, &octets(hex)), Ok(laid), "{hex}");
    assert_eq!(tape.mark(), Position(count), "{hex}");
    assert!(tape.nests(), "{hex}");
    look(&tape);
    let mut expected = vec![u64::MAX; one_short];
    for (at, record) in all(&tape).enumerate() {
        put::<L>(&mut expected, at, record.words());
    }
    assert_eq!(tape.words()[4..], expected[4..], "{hex}");
    assert!(beside.iter().all(|word| *word == u64::MAX), "{hex}");
}

/// All records of a tape.
fn all<'tape, L: Layout>(tape: &'tape Tape<'_, L>) -> impl Iterator<Item = Record<'tape, L>> {
    (0..tape.mark().0).map(|at| tape.read(Position(at)).unwrap())
}

/// The only record with a label.
fn only<'tape, L: Layout>(tape: &'tape Tape<'_, L>, label: Label) -> Record<'tape, L> {
    let found: Vec<_> = all(tape).filter(|record| record.label == label).collect();
    assert_eq!(found.len(), 1, "{label:?}: {found:?}");
    found[0].clone()
}

/// The numbers of a container's children.
fn numbers<L: Layout>(container: &Record<'_, L>) -> Vec<u64> {
    let children = container.children();
    children.map(|child| child.unwrap().number).collect()
}

in_both_layouts! {
    an_empty_area_gives_nothing,
    a_lone_octet_is_raw,
    a_metric_gives_the_listing,
    the_parts_of_a_record_are_those_of_its_words,
    an_entry_that_overruns_is_raw,
    a_short_metric_is_a_value,
    no_algorithms_are_an_empty_array,
    sids_are_20_or_32_bits,
    a_range_holds_size_and_sid,
    another_sub_type_is_no_range,
    the_tail_of_type_25_is_of_registry_5,
    attribute_flags_come_one_by_one,
    no_area_needs_more_than_the_most_records,
    unreserved_bandwidth_has_32_octets,
    an_overrun_srv6_tail_keeps_its_length_octet,
    a_metric_needs_room_for_5,
    an_area_ends_at_octet_4_294_967_295_at_the_latest,
    a_walk_leaves_the_tail_to_its_caller,
}

fn an_empty_area_gives_nothing<L: Layout>() {
    for registry in Registry::ALL {
        assert_push::<L>(*registry, "", 0, 0, |tape| {
            assert_eq!(tape.trees_from(Position(0)).count(), 0);
        });
    }
}

fn a_lone_octet_is_raw<L: Layout>() {
    assert_push::<L>(Registry::Neighbor, "12", 0, 2, |tape| {
        assert_eq!(only(tape, Label::SubTlvs).octets, 100..100);
        assert_eq!(only(tape, Label::Raw).octets, 100..101);
    });
}

fn a_metric_gives_the_listing<L: Layout>() {
    let listing = [
        [4 + 256 * 7, 100, 105, 0, 1, 5],
        [47 + 256 * 8, 100, 105, 0, 2, 5],
        [0, 100, 101, 18, 0, 0],
        [1, 101, 102, 3, 0, 0],
        [15 + 256 * 2, 102, 105, 10, 0, 0],
    ];
    assert_push::<L>(Registry::Neighbor, "12 03 00 00 0A", 5, 5, |tape| {
        assert!(all(tape).map(|record| record.words()).eq(listing));
        assert_eq!(tape.words()[..4], [5, 4, L::RECORD_WORDS as u64, 0]);
    });
}

fn the_parts_of_a_record_are_those_of_its_words<L: Layout>() {
    assert_push::<L>(Registry::Neighbor, "12 03 00 00 0A", 5, 5, |tape| {
        let metric = tape.read(Position(4)).unwrap();
        assert_eq!(metric.position, Position(4));
        assert_eq!(metric.label, Label::TeDefaultMetric);
        assert_eq!(metric.shape, Shape::U32);
        assert_eq!(metric.registry, Registry::Neighbor);
        assert_eq!((metric.octets, metric.number), (102..105, 10));
        assert_eq!(metric.descendants, Position(0)..Position(0));
        let entry = tape.read(Position(1)).unwrap();
        assert_eq!(entry.descendants, Position(2)..Position(5));
        assert_eq!(numbers(&entry), [18, 3, 10]);
    });
}

fn an_entry_that_overruns_is_raw<L: Layout>() {
    assert_push::<L>(Registry::Neighbor, "12 03 00 00", 0, 2, |tape| {
        assert_eq!(only(tape, Label::SubTlvs).children().count(), 0);
        assert_eq!(only(tape, Label::Raw).octets, 100..104);
    });
}

fn a_short_metric_is_a_value<L: Layout>() {
    assert_push::<L>(Registry::Neighbor, "12 02 00 0A", 4, 5, |tape| {
        let value = only(tape, Label::Value);
        assert_eq!((value.octets, value.shape), (102..104, Shape::Bytes));
    });
}

fn no_algorithms_are_an_empty_array<L: Layout>() {
    assert_push::<L>(Registry::RouterCapability, "13 00", 2, 5, |tape| {
        let algorithms = only(tape, Label::Algorithms);
        assert_eq!(algorithms.octets, 102..102);
        assert_eq!(algorithms.children().count(), 0);
    });
}

fn sids_are_20_or_32_bits<L: Layout>() {
    for (hex, covered, sid) in [
        ("01 03 FF FF FF", 5, 1_048_575),
        ("01 04 00 0F 42 40", 6, 1_000_000),
    ] {
        assert_push::<L>(Registry::Binding, hex, covered, 5, |tape| {
            assert_eq!(only(tape, Label::Sid).number, sid);
        });
    }
}

fn a_range_holds_size_and_sid<L: Layout>() {
    let hex = "02 09 C0 00 03 E8 01 03 00 3E 80";
    assert_push::<L>(Registry::RouterCapability, hex, 11, 9, |tape| {
        let range = only(tape, Label::Range);
        assert_eq!(range.octets, 103..111);
        assert_eq!(numbers(&range), [1_000, 16_000]);
        assert_eq!(only(tape, Label::RangeSid).octets, 108..111);
    });
}

fn another_sub_type_is_no_range<L: Layout>() {
    let hex = "02 09 C0 00 03 E8 02 03 00 3E 80";
    assert_push::<L>(Registry::RouterCapability, hex, 11, 7, |tape| {
        let ranges = only(tape, Label::Ranges);
        assert_eq!((ranges.children().count(), ranges.octets), (0, 103..103));
        assert_eq!(only(tape, Label::Raw).octets, 103..111);
    });
}

fn the_tail_of_type_25_is_of_registry_5<L: Layout>() {
    assert_push::<L>(Registry::RouterCapability, "19 03 80 00 07", 5, 7, |tape| {
        let flags = only(tape, Label::Srv6Flags);
        assert_eq!((flags.number, flags.shape), (32_768, Shape::U16));
        let raw = only(tape, Label::Raw);
        assert_eq!(
            (raw.octets, raw.registry),
            (104..105, Registry::Unregistered)
        );
        let array = tape.read(Position(5)).unwrap();
        assert_eq!((array.label, array.octets), (Label::SubTlvs, 104..104));
        assert_eq!(array.registry, Registry::Unregistered);
    });
}

fn attribute_flags_come_one_by_one<L: Layout>() {
    assert_push::<L>(Registry::Prefix, "04 01 A0", 3, 8, |tape| {
        let entry = tape.read(Position(1)).unwrap();
        assert_eq!(numbers(&entry), [4, 1, 160, 1, 0, 1]);
    });
}

fn no_area_needs_more_than_the_most_records<L: Layout>() {
    let most = [0, 1, 2, 3, 65_535].map(most_records);
    assert_eq!(most, [0, 3, 5, 8, 152_916]);
    let three = most_records(3) as u64;
    assert_push::<L>(Registry::Prefix, "04 01 A0", 3, three, |_| ());
}

fn unreserved_bandwidth_has_32_octets<L: Layout>() {
    for (length, count, label) in [
        (31, 5, Label::Value),
        (32, 13, Label::UnreservedBandwidth),
        (33, 14, Label::Raw),
    ] {
        let hex = format!("0B {length:02X} {}", "3F ".repeat(length));
        let covered = length as u64 + 2;
        assert_push::<L>(Registry::Neighbor, &hex, covered, count, |tape| {
            only(tape, label);
        });
    }
}

fn an_overrun_srv6_tail_keeps_its_length_octet<L: Layout>() {
    let value = "05 14 ".to_string() + &"2A ".repeat(19);
    assert_push::<L>(Registry::Prefix, &(value.clone() + "01"), 22, 8, |tape| {
        assert_eq!(only(tape, Label::Raw).octets, 121..122);
    });
    assert_push::<L>(Registry::Prefix, &(value + "00"), 22, 7, |tape| {
        let sid = only(tape, Label::Srv6Sid);
        assert_eq!((sid.shape, sid.octets), (Shape::Ipv6, 105..121));
    });
}

#[test]
fn prefixes_are_masked() {
    let mut prefix = [0xFF; 3];
    mask_prefix(&mut prefix[..2], 16);
    assert_eq!(prefix, [0xFF; 3]);
    mask_prefix(&mut prefix[..2], 13);
    assert_eq!(prefix, [0xFF, 0xF8, 0xFF]);
}

fn a_metric_needs_room_for_5<L: Layout>() {
    let enough = Tape::<L>::words_in_layout(5);
    let mut words = vec![0; enough];
    let mut tape = Tape::<L>::cleared_in_layout(&mut words[..enough - 1]).unwrap();
    let push = tape.push(Registry::Neighbor, BASE, &METRIC);
    assert_eq!(push, Err(Refusal::NoRoom { needed: 5 }));
    let mut tape = Tape::<L>::cleared_in_layout(&mut words).unwrap();
    let laid = tape.push(Registry::Neighbor, BASE, &METRIC).unwrap();
    assert_eq!(laid.written, 5);
}

fn an_area_ends_at_octet_4_294_967_295_at_the_latest<L: Layout>() {
    let mut words = words::<L>();
    let mut tape = Tape::<L>::cleared_in_layout(&mut words).unwrap();
    let six = [0x12, 0x04, 0x00, 0x00, 0x0A, 0x00];
    let push = tape.push(Registry::Neighbor, 4_294_967_290, &six);
    assert_eq!(push, Err(Refusal::BaseTooHigh));
    let push = tape.push(Registry::Neighbor, 4_294_967_290, &METRIC);
    assert_eq!(push.map(|laid| laid.covered), Ok(5));
    assert_eq!(only(&tape, Label::SubTlvs).octets.end, 4_294_967_295);
}

fn a_walk_leaves_the_tail_to_its_caller<L: Layout>() {
    let mut words = words::<L>();
    let (lent, beside) = words.split_at_mut(Tape::<L>::words_in_layout(5));
    let mut tape = Tape::<L>::cleared_in_layout(lent).unwrap();
    let walk = tape.walk(Registry::Neighbor, BASE, &octets("12 03 00 00 0A 12"));
    let laid = walk.unwrap();
    assert_eq!((laid.covered, laid.written, laid.needed), (5, 5, 5));
    assert_eq!(tape.trees_from(Position(0)).count(), 1);
    assert!(beside.iter().all(|word| *word == u64::MAX));
}
