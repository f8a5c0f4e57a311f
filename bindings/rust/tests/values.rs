//! The values of records, out of the area that they were read from, in both layouts.

mod shared;

use std::net::{Ipv4Addr, Ipv6Addr};

use shared::{in_both_layouts, tape_of};
use wakkemosut::{Label, Layout, Position, Registry, Tape, Value, most_records};

/// The place of an area's first octet.
const BASE: u64 = 100;

/// The values of the records of an area, each with its label.
fn values<L: Layout>(registry: Registry, area: &[u8]) -> Vec<(Label, Option<Value<'_>>)> {
    let mut words = vec![0; Tape::<L>::words_in_layout(most_records(area.len()))];
    let mut tape = Tape::<L>::cleared_in_layout(&mut words).unwrap();
    tape.push(registry, BASE, area).unwrap();
    let records = tape.records().map(Result::unwrap);
    records
        .map(|record| (record.label, record.value_in(area, BASE)))
        .collect()
}

/// Asserts the values of the fields of an area's only entry: those behind type and length.
fn assert_fields<L: Layout>(registry: Registry, area: &[u8], expected: &[(Label, Value<'_>)]) {
    let values = values::<L>(registry, area);
    let containers = [Label::SubTlvs, Label::SubTlv].map(|label| (label, Some(Value::Container)));
    assert_eq!(values[..2], containers);
    let [t, length] = [area[0], area[1]].map(|octet| Some(Value::Number(octet.into())));
    assert_eq!(values[2..4], [(Label::Type, t), (Label::Length, length)]);
    let fields = expected.iter().map(|(label, value)| (*label, Some(*value)));
    assert!(values[4..].iter().copied().eq(fields), "{values:?}");
}

/// The value of a lone record with these six words, in an area at a base.
fn value_of<L: Layout>(record: [u64; 6], area: &[u8], base: u64) -> Option<Value<'_>> {
    let mut words = tape_of::<L>(&[record]);
    let tape = Tape::<L>::in_layout(&mut words);
    tape.read(Position(0)).unwrap().value_in(area, base)
}

in_both_layouts! {
    numbers_are_numbers_in_every_width,
    addresses_are_addresses,
    octets_are_those_of_the_area,
    an_array_is_a_container,
    a_value_outside_the_area_is_none,
    an_address_has_4_or_16_octets,
    a_value_at_the_end_of_all_octets_is_there,
}

fn numbers_are_numbers_in_every_width<L: Layout>() {
    let tag = [2, 8, 0x01, 0x23, 0x45, 0x67, 0x89, 0xAB, 0xCD, 0xEF];
    let expected = [
        (Label::Tags, Value::Container),
        (Label::Tag, Value::Number(0x0123_4567_89AB_CDEF)),
    ];
    assert_fields::<L>(Registry::Prefix, &tag, &expected);
    let metric = [(Label::TeDefaultMetric, Value::Number(10))];
    assert_fields::<L>(Registry::Neighbor, &[18, 3, 0, 0, 10], &metric);
    let preference = [(Label::Preference, Value::Number(255))];
    assert_fields::<L>(Registry::RouterCapability, &[24, 1, 255], &preference);
    let delay = [
        (Label::Anomalous, Value::Number(1)),
        (Label::Delay, Value::Number(0x01_02_03)),
    ];
    assert_fields::<L>(Registry::Neighbor, &[33, 4, 0x80, 1, 2, 3], &delay);
}

fn addresses_are_addresses<L: Layout>() {
    let address = Value::Ipv4(Ipv4Addr::new(192, 0, 2, 1));
    let expected = [(Label::Ipv4InterfaceAddress, address)];
    assert_fields::<L>(Registry::Neighbor, &[6, 4, 192, 0, 2, 1], &expected);
    let mut area = [0; 18];
    area[..6].copy_from_slice(&[12, 16, 0x20, 0x01, 0x0D, 0xB8]);
    area[17] = 7;
    let address = Value::Ipv6("2001:db8::7".parse().unwrap());
    let expected = [(Label::Ipv6InterfaceAddress, address)];
    assert_fields::<L>(Registry::Neighbor, &area, &expected);
}

fn octets_are_those_of_the_area<L: Layout>() {
    let value = [(Label::Value, Value::Bytes(&[0xBE, 0xEF]))];
    assert_fields::<L>(Registry::Neighbor, &[255, 2, 0xBE, 0xEF], &value);
    let value = [(Label::Value, Value::Bytes(&[]))];
    assert_fields::<L>(Registry::Neighbor, &[255, 0], &value);
    let area = [18, 3, 0, 0, 10, 1, 2];
    let raw = values::<L>(Registry::Neighbor, &area).pop();
    assert_eq!(raw, Some((Label::Raw, Some(Value::Bytes(&[1, 2])))));
}

fn an_array_is_a_container<L: Layout>() {
    let none = [(Label::Algorithms, Value::Container)];
    assert_fields::<L>(Registry::RouterCapability, &[19, 0], &none);
}

fn a_value_outside_the_area_is_none<L: Layout>() {
    let area = [9; 16];
    for shape in 0..=8 {
        let octets = if shape == 5 { 16 } else { 4 };
        let record = [256 * shape, 100, 100 + octets, 10, 0, 0];
        assert!(value_of::<L>(record, &area, 100).is_some(), "{shape}");
        assert!(value_of::<L>(record, &area[..octets as usize], 100).is_some());
        assert_eq!(
            value_of::<L>(record, &area[..octets as usize - 1], 100),
            None
        );
        for base in [0, 84, 101, 1 << 32, u64::MAX] {
            assert_eq!(
                value_of::<L>(record, &area, base),
                None,
                "{shape} at {base}"
            );
        }
    }
}

fn an_address_has_4_or_16_octets<L: Layout>() {
    let area = [9; 20];
    let address = |shape: u64, octets| value_of::<L>([256 * shape, 0, octets, 0, 0, 0], &area, 0);
    for octets in [0, 1, 3, 5, 15, 16, 17, 20] {
        assert_eq!(address(4, octets), None, "{octets}");
    }
    for octets in [0, 4, 8, 15, 17, 20] {
        assert_eq!(address(5, octets), None, "{octets}");
    }
    assert_eq!(address(4, 4), Some(Value::Ipv4(Ipv4Addr::from([9; 4]))));
    assert_eq!(address(5, 16), Some(Value::Ipv6(Ipv6Addr::from([9; 16]))));
}

fn a_value_at_the_end_of_all_octets_is_there<L: Layout>() {
    let record = [256 * 6, 0xFFFF_FFFD, 0xFFFF_FFFF, 0, 0, 0];
    let value = value_of::<L>(record, &[1, 2], 0xFFFF_FFFD);
    assert_eq!(value, Some(Value::Bytes(&[1, 2])));
}
