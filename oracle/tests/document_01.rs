//! The examples of document 01, section "Octets and what they become", the
//! registries of an SRv6 tail, and the answers of the dump program.

use oracle::{Push, Record, dump, dumped, mask_prefix, push};

/// The base of the examples.
const BASE: u32 = 100;

/// The labels that the examples speak of.
mod label {
    pub const VALUE: u8 = 2;
    pub const RAW: u8 = 3;
    pub const SUB_TLVS: u8 = 4;
    pub const UNRESERVED_BANDWIDTH: u8 = 14;
    pub const FLAGS: u8 = 16;
    pub const SID: u8 = 19;
    pub const SRV6_SID: u8 = 29;
    pub const FLAG_X: u8 = 35;
    pub const FLAG_R: u8 = 36;
    pub const FLAG_N: u8 = 37;
    pub const RANGES: u8 = 40;
    pub const ALGORITHMS: u8 = 41;
    pub const SRV6_FLAGS: u8 = 44;
    pub const RANGE: u8 = 48;
    pub const RANGE_SIZE: u8 = 49;
    pub const RANGE_SID: u8 = 50;
    pub const BANDWIDTH_ELEMENT: u8 = 54;
}

/// The octets of a hex text.
fn octets(hex: &str) -> Vec<u8> {
    hex.split_whitespace()
        .map(|pair| u8::from_str_radix(pair, 16).expect("two hex digits"))
        .collect()
}

/// The push of a hex text at the base of the examples.
fn push_hex(registry: u8, hex: &str) -> Push {
    push(registry, BASE, &octets(hex))
}

/// The records with a label.
fn labelled(push: &Push, label: u8) -> Vec<Record> {
    let all = push.records.iter().copied();
    all.filter(|record| record.label == label).collect()
}

/// The only record with a label.
fn only(push: &Push, label: u8) -> Record {
    let found = labelled(push, label);
    assert_eq!(found.len(), 1, "records with label {label} in {push:?}");
    found[0]
}

/// The range of a record.
fn range(record: Record) -> (u64, u64) {
    (record.first, record.past_last)
}

/// Whether a container has no children.
fn is_empty(record: Record) -> bool {
    record.first_child != 0 && record.first_child == record.past_children
}

#[test]
fn an_empty_area_gives_nothing() {
    for registry in 0..=5 {
        let empty = push_hex(registry, "");
        assert_eq!(empty.covered, 0);
        assert_eq!(empty.records, []);
    }
}

#[test]
fn a_lone_octet_is_raw() {
    let lone = push_hex(0, "12");
    assert_eq!(lone.records.len(), 2);
    assert_eq!(lone.covered, 0);
    assert_eq!(range(only(&lone, label::SUB_TLVS)), (100, 100));
    assert_eq!(range(only(&lone, label::RAW)), (100, 101));
}

#[test]
fn a_metric_gives_the_listing() {
    let listing = "\
0 5 5 5
0 4 7 0 100 105 0 1 5
1 47 8 0 100 105 0 2 5
2 0 0 0 100 101 18 0 0
3 1 0 0 101 102 3 0 0
4 15 2 0 102 105 10 0 0
";
    assert_eq!(dump(&push_hex(0, "12 03 00 00 0A")), listing);
}

#[test]
fn an_entry_that_overruns_is_raw() {
    let overrun = push_hex(0, "12 03 00 00");
    assert_eq!(overrun.records.len(), 2);
    assert_eq!(overrun.covered, 0);
    assert!(is_empty(only(&overrun, label::SUB_TLVS)));
    assert_eq!(range(only(&overrun, label::RAW)), (100, 104));
}

#[test]
fn a_short_metric_is_a_value() {
    let short = push_hex(0, "12 02 00 0A");
    assert_eq!(range(only(&short, label::VALUE)), (102, 104));
    assert_eq!(labelled(&short, label::RAW), []);
}

#[test]
fn no_algorithms_are_an_empty_array() {
    let algorithms = only(&push_hex(2, "13 00"), label::ALGORITHMS);
    assert_eq!(range(algorithms), (102, 102));
    assert!(is_empty(algorithms));
}

#[test]
fn three_octets_of_sid_are_20_bits() {
    let sid = only(&push_hex(3, "01 03 FF FF FF"), label::SID);
    assert_eq!(sid.number, 1_048_575);
}

#[test]
fn four_octets_of_sid_are_32_bits() {
    let sid = only(&push_hex(3, "01 04 00 0F 42 40"), label::SID);
    assert_eq!(sid.number, 1_000_000);
}

#[test]
fn a_range_holds_size_and_sid() {
    let block = push_hex(2, "02 09 C0 00 03 E8 01 03 00 3E 80");
    assert_eq!(block.records.len(), 9);
    assert_eq!(range(only(&block, label::RANGE)), (103, 111));
    assert_eq!(only(&block, label::RANGE_SIZE).number, 1_000);
    assert_eq!(only(&block, label::RANGE_SID).number, 16_000);
    assert_eq!(range(only(&block, label::RANGE_SID)), (108, 111));
}

#[test]
fn another_sub_type_is_no_range() {
    let block = push_hex(2, "02 09 C0 00 03 E8 02 03 00 3E 80");
    assert!(is_empty(only(&block, label::RANGES)));
    assert_eq!(range(only(&block, label::RANGES)), (103, 103));
    assert_eq!(range(only(&block, label::RAW)), (103, 111));
}

#[test]
fn the_tail_of_type_25_is_of_registry_5() {
    let capabilities = push_hex(2, "19 03 80 00 07");
    assert_eq!(only(&capabilities, label::SRV6_FLAGS).number, 32_768);
    let [_, inner] = labelled(&capabilities, label::SUB_TLVS)[..] else {
        panic!("two arrays wanted in {capabilities:?}");
    };
    let raw = only(&capabilities, label::RAW);
    assert_eq!(range(inner), (104, 104));
    assert_eq!(range(raw), (104, 105));
    let nested = capabilities.records.iter().filter(|one| one.registry == 5);
    assert_eq!(nested.copied().collect::<Vec<_>>(), [inner, raw]);
}

#[test]
fn prefix_attributes_show_three_flags() {
    let attributes = push_hex(1, "04 01 A0");
    assert_eq!(attributes.records.len(), 8);
    let numbers = [label::FLAGS, label::FLAG_X, label::FLAG_R, label::FLAG_N]
        .map(|label| only(&attributes, label).number);
    assert_eq!(numbers, [160, 1, 0, 1]);
}

#[test]
fn masking_clears_the_bits_after_the_first() {
    let mut prefix = [0xFF, 0xFF];
    mask_prefix(&mut prefix, 16);
    assert_eq!(prefix, [0xFF, 0xFF]);
    mask_prefix(&mut prefix, 13);
    assert_eq!(prefix, [0xFF, 0xF8]);
}

/// The push of one entry whose value is all zero but for the last octet.
fn push_entry(registry: u8, t: u8, length: u8, last: u8) -> Push {
    let mut area = vec![t, length];
    area.resize(1 + usize::from(length), 0);
    area.push(last);
    push(registry, BASE, &area)
}

#[test]
fn unreserved_bandwidth_wants_32_octets() {
    let short = push_entry(0, 11, 31, 0);
    assert_eq!(range(only(&short, label::VALUE)), (102, 133));
    assert_eq!(labelled(&short, label::UNRESERVED_BANDWIDTH), []);
    let exact = push_entry(0, 11, 32, 0);
    assert_eq!(exact.records.len(), 13);
    assert_eq!(labelled(&exact, label::BANDWIDTH_ELEMENT).len(), 8);
    let long = push_entry(0, 11, 33, 0);
    assert_eq!(long.records.len(), 14);
    assert_eq!(range(only(&long, label::RAW)), (134, 135));
}

#[test]
fn an_srv6_tail_that_overruns_keeps_its_length_octet() {
    let overrun = push_entry(1, 5, 20, 1);
    assert_eq!(range(only(&overrun, label::SRV6_SID)), (105, 121));
    assert_eq!(range(only(&overrun, label::RAW)), (121, 122));
    assert_eq!(labelled(&overrun, label::SUB_TLVS).len(), 1);
}

#[test]
fn an_empty_srv6_tail_has_neither_array_nor_raw() {
    let empty = push_entry(1, 5, 20, 0);
    assert_eq!(range(only(&empty, label::SRV6_SID)), (105, 121));
    assert_eq!(labelled(&empty, label::RAW), []);
    assert_eq!(labelled(&empty, label::SUB_TLVS).len(), 1);
}

#[test]
fn offsets_reach_the_greatest_32_bit_number() {
    let high = push(0, 4_294_967_290, &octets("12 03 00 00 0A"));
    assert_eq!(high.covered, 5);
    assert_eq!(
        range(only(&high, label::SUB_TLVS)),
        (4_294_967_290, 4_294_967_295)
    );
}

#[test]
fn inner_entries_of_an_srv6_tail_are_of_registry_4() {
    let mut area = vec![5, 26, 0, 0, 0];
    area.extend([0; 16]);
    area.extend([6, 1, 4, 40, 24, 16, 0]);
    let end_sid = push(1, BASE, &area);
    let registries: Vec<u8> = end_sid.records.iter().map(|one| one.registry).collect();
    assert_eq!(registries, [1, 1, 1, 1, 1, 1, 1, 4, 4, 4, 4, 4, 4, 4, 4]);
}

/// The first line that the dump program prints for a head in hex and an area of zeros.
fn first_line(head: &str, zeros: usize) -> String {
    let text = dumped(&[octets(head), vec![0; zeros]].concat());
    text.lines().next().unwrap_or_default().into()
}

#[test]
fn the_dump_program_prints_the_listing() {
    let metric = dumped(&octets("00 00 00 00 64 12 03 00 00 0A"));
    assert_eq!(metric, dump(&push_hex(0, "12 03 00 00 0A")));
    assert_eq!(dumped(&octets("05 00 00 00 64")), "0 0 0 0\n");
}

#[test]
fn a_refusal_prints_the_first_line_only() {
    assert_eq!(dumped(&[]), "10 0 0 0\n");
    assert_eq!(dumped(&octets("06 00 00 00 64 12")), "1 0 0 0\n");
    assert_eq!(dumped(&octets("00 FF FF FF FF 12")), "3 0 0 0\n");
}

#[test]
fn an_input_under_5_octets_gets_answer_10() {
    for head in ["", "00", "06 00", "00 00 00", "FF FF FF FF"] {
        assert_eq!(first_line(head, 0), "10 0 0 0");
    }
    assert_eq!(first_line("00 00 00 00 00", 0), "0 0 0 0");
}

#[test]
fn an_area_over_768_octets_gets_answer_10() {
    assert_eq!(first_line("00 00 00 00 00", 768), "0 768 1537 1537");
    for head in ["00 00 00 00 00", "06 00 00 00 00", "00 FF FF FF FF"] {
        assert_eq!(first_line(head, 769), "10 0 0 0");
        assert_eq!(first_line(head, 70_000), "10 0 0 0");
    }
}

#[test]
fn a_registry_over_5_gets_answer_1_even_where_the_area_does_not_fit() {
    for head in ["06 00 00 00 00", "07 00 00 00 64", "FF FF FF FF FF"] {
        for zeros in [0, 1, 768] {
            assert_eq!(first_line(head, zeros), "1 0 0 0");
        }
    }
}

#[test]
fn an_area_past_the_greatest_place_gets_answer_3() {
    assert_eq!(first_line("00 FF FF FF FA", 5), "0 4 10 10");
    assert_eq!(first_line("00 FF FF FF FA", 6), "3 0 0 0");
    assert_eq!(first_line("00 FF FF FF FF", 0), "0 0 0 0");
    assert_eq!(first_line("00 FF FF FF FF", 1), "3 0 0 0");
}
