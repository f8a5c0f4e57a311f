//! Listings, worked out by hand from document 01 and the RFCs: every row of the table of
//! registries, and what is not known or not read.

mod shared;

use shared::{WORKED, shown};

/// The lines of the listing of an area at place 100, behind the first line and the empty one.
fn lines(registry: &str, octets: &str) -> Vec<String> {
    let listing = shown(&["area", registry, "100", octets]);
    listing.lines().skip(2).map(String::from).collect()
}

/// A line with single spaces between its words.
fn closed_up(line: &str) -> String {
    line.split_whitespace().collect::<Vec<_>>().join(" ")
}

/// Asserts what the rows of an area at place 100 say, whatever their columns are.
fn assert_rows(registry: &str, octets: &str, expected: &[&str]) {
    let rows: Vec<String> = lines(registry, octets)
        .iter()
        .map(|line| closed_up(line))
        .collect();
    assert_eq!(rows, expected, "{registry} {octets}");
}

/// A value of a type, its least length in octets, and what is shown of it.
struct Case {
    registry: &'static str,
    kind: u8,
    name: &'static str,
    /// The value, in hex, as long as the least length.
    value: &'static str,
    /// What stands in the line of the entry.
    shown: &'static str,
    /// The rows under it.
    under: &'static [&'static str],
}

/// Every row of document 01's table of registries, at its least length.
const TABLE: [Case; 39] = [
    Case {
        registry: "0",
        kind: 3,
        name: "Administrative group (color)",
        value: "80 00 00 05",
        shown: "0x80000005 (groups 0, 2, 31)",
        under: &[],
    },
    Case {
        registry: "0",
        kind: 4,
        name: "Link Local/Remote Identifiers",
        value: "00 00 00 07 00 00 01 00",
        shown: "local 7, remote 256",
        under: &[],
    },
    Case {
        registry: "0",
        kind: 6,
        name: "IPv4 interface address",
        value: "C0 00 02 01",
        shown: "192.0.2.1",
        under: &[],
    },
    Case {
        registry: "0",
        kind: 8,
        name: "IPv4 neighbor address",
        value: "C0 00 02 02",
        shown: "192.0.2.2",
        under: &[],
    },
    // 10 Gbit/s are 1.25 x 10^9 bytes a second, the single 0x4E9502F9.
    Case {
        registry: "0",
        kind: 9,
        name: "Maximum link bandwidth",
        value: "4E 95 02 F9",
        shown: "10 Gbit/s",
        under: &[],
    },
    Case {
        registry: "0",
        kind: 10,
        name: "Maximum reservable link bandwidth",
        value: "4C EE 6B 28",
        shown: "1 Gbit/s",
        under: &[],
    },
    Case {
        registry: "0",
        kind: 11,
        name: "Unreserved bandwidth",
        value: "4E 95 02 F9 4C EE 6B 28 3F 80 00 00 00 00 00 00 \
                7F 80 00 00 7F C0 00 00 BF 80 00 00 48 18 96 80",
        shown: "8 priorities",
        under: &[
            "priority 0 10 Gbit/s",
            "priority 1 1 Gbit/s",
            "priority 2 8 bit/s",
            "priority 3 0 bit/s",
            "priority 4 infinite (0x7F800000)",
            "priority 5 not a number (0x7FC00000)",
            "priority 6 negative (0xBF800000)",
            "priority 7 1.25 Mbit/s",
        ],
    },
    Case {
        registry: "0",
        kind: 12,
        name: "IPv6 Interface Address",
        value: "20 01 0D B8 00 00 00 00 00 00 00 00 00 00 00 01",
        shown: "2001:db8::1",
        under: &[],
    },
    Case {
        registry: "0",
        kind: 13,
        name: "IPv6 Neighbor Address",
        value: "20 01 0D B8 00 00 00 00 00 00 00 00 00 00 00 02",
        shown: "2001:db8::2",
        under: &[],
    },
    Case {
        registry: "0",
        kind: 18,
        name: "TE Default metric",
        value: "FF FF FF",
        shown: "16777215",
        under: &[],
    },
    // With 3 octets left, a SID is their low 20 bits.
    Case {
        registry: "0",
        kind: 31,
        name: "Adjacency Segment Identifier",
        value: "30 05 F0 5D C5",
        shown: "24005 (3 octets)",
        under: &["flags 0x30 (V L)", "weight 5"],
    },
    Case {
        registry: "0",
        kind: 32,
        name: "LAN Adjacency Segment Identifier",
        value: "B1 00 00 00 00 00 00 0A 00 5D C6",
        shown: "24006 (3 octets)",
        under: &[
            "flags 0xB1 (F V L, and 0x01)",
            "weight 0",
            "neighbor system id 0000.0000.000a",
        ],
    },
    Case {
        registry: "0",
        kind: 33,
        name: "Unidirectional Link Delay",
        value: "80 FF FF FF",
        shown: "16777215 µs or more",
        under: &["anomalous yes"],
    },
    Case {
        registry: "0",
        kind: 34,
        name: "Min/Max Unidirectional Link Delay",
        value: "00 00 03 E8 00 00 07 D0",
        shown: "min 1000 µs, max 2000 µs",
        under: &["anomalous no"],
    },
    Case {
        registry: "0",
        kind: 35,
        name: "Unidirectional Delay Variation",
        value: "00 00 00 0A",
        shown: "10 µs",
        under: &[],
    },
    // 16,777,214 x 3 / 1,000,000.
    Case {
        registry: "0",
        kind: 36,
        name: "Unidirectional Link Loss",
        value: "00 FF FF FE",
        shown: "50.331642 % or more",
        under: &["anomalous no"],
    },
    Case {
        registry: "0",
        kind: 37,
        name: "Unidirectional Residual Bandwidth",
        value: "4C EE 6B 28",
        shown: "1 Gbit/s",
        under: &[],
    },
    Case {
        registry: "0",
        kind: 38,
        name: "Unidirectional Available Bandwidth",
        value: "42 FA 00 00",
        shown: "1 kbit/s",
        under: &[],
    },
    // 100 Gbit/s are no single; the nearest is 12,499,999,744 bytes a second.
    Case {
        registry: "0",
        kind: 39,
        name: "Unidirectional Utilized Bandwidth",
        value: "50 3A 43 B7",
        shown: "99.999997952 Gbit/s (nearest to 100 Gbit/s)",
        under: &[],
    },
    Case {
        registry: "0",
        kind: 43,
        name: "SRv6 End.X SID",
        value: "E0 80 01 00 05 FC 00 00 00 00 01 00 00 E0 01 00 00 00 00 00 00",
        shown: "fc00:0:1:0:e001::",
        under: &[
            "flags 0xE0 (B S P)",
            "algorithm 128",
            "weight 1",
            "endpoint behavior 5",
        ],
    },
    Case {
        registry: "0",
        kind: 44,
        name: "SRv6 LAN End.X SID",
        value: "00 00 00 00 00 01 10 00 00 00 06 \
                FC 00 00 00 00 01 00 00 E0 02 00 00 00 00 00 00",
        shown: "fc00:0:1:0:e002::",
        under: &[
            "neighbor system id 0000.0000.0001",
            "flags 0x10 (no letters)",
            "algorithm 0",
            "weight 0",
            "endpoint behavior 6",
        ],
    },
    Case {
        registry: "1",
        kind: 1,
        name: "32-bit Administrative Tag",
        value: "FF FF FF FF",
        shown: "4294967295",
        under: &[],
    },
    Case {
        registry: "1",
        kind: 2,
        name: "64-bit Administrative Tag",
        value: "FF FF FF FF FF FF FF FF",
        shown: "18446744073709551615",
        under: &[],
    },
    Case {
        registry: "1",
        kind: 3,
        name: "Prefix Segment Identifier",
        value: "4C 00 00 3E 80",
        shown: "16000 (3 octets)",
        under: &["flags 0x4C (N V L)", "algorithm 0"],
    },
    Case {
        registry: "1",
        kind: 4,
        name: "Prefix Attribute Flags",
        value: "BF",
        shown: "0xBF (X N E A, and 0x07)",
        under: &[],
    },
    Case {
        registry: "1",
        kind: 5,
        name: "SRv6 End SID",
        value: "01 00 01 20 01 0D B8 00 01 00 02 00 00 00 00 00 00 00 00",
        shown: "2001:db8:1:2::",
        under: &["flags 0x01 (no letters)", "endpoint behavior 1"],
    },
    Case {
        registry: "1",
        kind: 11,
        name: "IPv4 Source Router ID",
        value: "0A 00 00 01",
        shown: "10.0.0.1",
        under: &[],
    },
    Case {
        registry: "1",
        kind: 12,
        name: "IPv6 Source Router ID",
        value: "20 01 0D B8 00 00 00 00 00 00 00 00 00 00 00 0A",
        shown: "2001:db8::a",
        under: &[],
    },
    Case {
        registry: "2",
        kind: 2,
        name: "Segment Routing Capability",
        value: "C0",
        shown: "no ranges",
        under: &["flags 0xC0 (I V)"],
    },
    Case {
        registry: "2",
        kind: 11,
        name: "IPv4 TE Router ID",
        value: "0A 00 00 02",
        shown: "10.0.0.2",
        under: &[],
    },
    Case {
        registry: "2",
        kind: 12,
        name: "IPv6 TE Router ID",
        value: "20 01 0D B8 00 00 00 00 00 00 00 00 00 00 00 0B",
        shown: "2001:db8::b",
        under: &[],
    },
    Case {
        registry: "2",
        kind: 19,
        name: "Segment Routing Algorithm",
        value: "",
        shown: "no algorithms",
        under: &[],
    },
    Case {
        registry: "2",
        kind: 22,
        name: "Segment Routing Local Block (SRLB)",
        value: "80",
        shown: "no ranges",
        under: &["flags 0x80 (no letters)"],
    },
    Case {
        registry: "2",
        kind: 23,
        name: "Node MSD",
        value: "",
        shown: "no MSDs",
        under: &[],
    },
    Case {
        registry: "2",
        kind: 24,
        name: "Segment Routing Mapping Server Preference (SRMS Preference)",
        value: "80",
        shown: "128",
        under: &[],
    },
    Case {
        registry: "2",
        kind: 25,
        name: "SRv6 Capabilities",
        value: "C0 00",
        shown: "0xC000 (O, and 0x8000)",
        under: &[],
    },
    Case {
        registry: "3",
        kind: 1,
        name: "SID/Label",
        value: "FF FF FF",
        shown: "1048575 (3 octets)",
        under: &[],
    },
    Case {
        registry: "3",
        kind: 3,
        name: "Prefix Segment Identifier",
        value: "B0 01 00 00 07",
        shown: "7 (3 octets)",
        under: &["flags 0xB0 (R P E)", "algorithm 1"],
    },
    Case {
        registry: "4",
        kind: 1,
        name: "SRv6 SID Structure",
        value: "28 10 10 00",
        shown: "block 40, node 16, function 16, argument 0 bits",
        under: &[],
    },
];

/// An entry of a type with these octets of value, in hex.
fn entry(kind: u8, octets: &[&str]) -> String {
    format!("{kind:02X} {:02X} {}", octets.len(), octets.join(" "))
}

#[test]
fn every_row_is_shown_at_its_least_length() {
    for case in &TABLE {
        let value: Vec<&str> = case.value.split_whitespace().collect();
        let line = format!("100 {} {} {}", case.kind, case.name, case.shown);
        let rows: Vec<&str> = [&[&line[..]], case.under].concat();
        assert_rows(case.registry, &entry(case.kind, &value), &rows);
    }
}

#[test]
fn every_row_is_octets_when_it_is_shorter() {
    for case in &TABLE {
        let value: Vec<&str> = case.value.split_whitespace().collect();
        let Some((_, short)) = value.split_last() else {
            continue;
        };
        let (octets, count) = match short.len() {
            0 => ("no octets".to_string(), "no octets".to_string()),
            1 => (short.join(" "), "1 octet".to_string()),
            count => (short.join(" "), format!("{count} octets")),
        };
        // Octets are shown 16 in a line.
        let tail = octets.get(47..).map(|tail| tail.trim().to_string());
        let line = format!(
            "100 {} {} {}",
            case.kind,
            case.name,
            octets.get(..47).unwrap_or(&octets)
        );
        let note = format!(
            "too short to be read: {count}, at least {} needed",
            value.len()
        );
        let mut rows = vec![&line[..]];
        rows.extend(tail.as_deref().filter(|tail| !tail.is_empty()));
        rows.push(&note);
        assert_rows(case.registry, &entry(case.kind, short), &rows);
    }
}

#[test]
fn the_worked_area_is_shown_in_columns() {
    let expected = "\
neighbor, 52 octets from 100 on: 4 entries in 48 octets, 4 octets left over

100  18  TE Default metric              10
105  31  Adjacency Segment Identifier   24005 (3 octets)
           flags                        0x30 (V L)
           weight                       0
112  33  Unidirectional Link Delay      1000 µs
           anomalous                    yes
118  43  SRv6 End.X SID                 fc00:0:1:0:e001::
           flags                        0x00
           algorithm                    0
           weight                       0
           endpoint behavior            5
           142   1  SRv6 SID Structure  block 40, node 16, function 16, argument 0 bits
148      4 octets left over             06 04 0A 00
           type 6 says 4 octets of value, 2 are there
";
    assert_eq!(shown(&["area", "neighbor", "100", WORKED]), expected);
}

#[test]
fn examples_of_document_01_are_shown() {
    assert_rows(
        "0",
        "12",
        &[
            "100 1 octet left over 12",
            "one octet is no entry: a type and a length are two",
        ],
    );
    assert_rows("0", "12 03 00 00 0A", &["100 18 TE Default metric 10"]);
    let cut = [
        "100 4 octets left over 12 03 00 00",
        "type 18 says 3 octets of value, 2 are there",
    ];
    assert_rows("0", "12 03 00 00", &cut);
    let short = [
        "100 18 TE Default metric 00 0A",
        "too short to be read: 2 octets, at least 3 needed",
    ];
    assert_rows("0", "12 02 00 0A", &short);
}

#[test]
fn more_examples_of_document_01_are_shown() {
    assert_rows(
        "3",
        "01 04 00 0F 42 40",
        &["100 1 SID/Label 1000000 (4 octets)"],
    );
    let range = [
        "100 2 Segment Routing Capability 1 range",
        "flags 0xC0 (I V)",
        "range size 1000, SID 16000 (3 octets)",
    ];
    assert_rows("2", "02 09 C0 00 03 E8 01 03 00 3E 80", &range);
    let stopped = [
        "100 2 Segment Routing Capability no ranges",
        "flags 0xC0 (I V)",
        "8 octets not read 00 03 E8 02 03 00 3E 80",
    ];
    assert_rows("2", "02 09 C0 00 03 E8 02 03 00 3E 80", &stopped);
    let capabilities = [
        "100 25 SRv6 Capabilities 0x8000 (no letters)",
        "1 octet not read 07",
    ];
    assert_rows("2", "19 03 80 00 07", &capabilities);
    let attributes = ["100 4 Prefix Attribute Flags 0xA0 (X N)"];
    assert_rows("1", "04 01 A0", &attributes);
}

#[test]
fn the_first_line_says_what_was_read() {
    for (octets, expected) in [
        ("", "prefix, an empty area at 100"),
        (
            "04",
            "prefix, 1 octet from 100 on: no entries, 1 octet left over",
        ),
        (
            "04 02 A0",
            "prefix, 3 octets from 100 on: no entries, 3 octets left over",
        ),
        ("04 01 A0", "prefix, 3 octets from 100 on: 1 entry"),
        (
            "04 01 A0 04",
            "prefix, 4 octets from 100 on: 1 entry in 3 octets, 1 octet left over",
        ),
        ("04 00 04 01 A0", "prefix, 5 octets from 100 on: 2 entries"),
    ] {
        let listing = shown(&["area", "prefix", "100", octets]);
        assert_eq!(listing.lines().next(), Some(expected), "{octets}");
    }
}

#[test]
fn octets_left_over_are_explained() {
    let none = [
        "100 2 octets left over 06 04",
        "type 6 says 4 octets of value, none is there",
    ];
    assert_rows("0", "06 04", &none);
    let one = [
        "100 3 octets left over 06 04 0A",
        "type 6 says 4 octets of value, 1 is there",
    ];
    assert_rows("0", "06 04 0A", &one);
    // 256 octets, the most that can be left over: 254 of 255 are there.
    let long = format!("FE FF {}", "00 ".repeat(254));
    let rows = lines("0", &long);
    assert_eq!(rows.len(), 17);
    assert_eq!(
        closed_up(&rows[0]),
        format!("100 256 octets left over FE FF{}", " 00".repeat(14))
    );
    assert_eq!(closed_up(&rows[15]), "00 ".repeat(16).trim());
    assert_eq!(
        closed_up(&rows[16]),
        "type 254 says 255 octets of value, 254 are there"
    );
}

#[test]
fn what_is_behind_the_fields_is_shown() {
    let metric = ["100 18 TE Default metric 10", "2 octets not read FF 00"];
    assert_rows("0", "12 05 00 00 0A FF 00", &metric);
    let msds = [
        "100 23 Node MSD 1 MSD",
        "msd type 1, value 10",
        "1 octet not read 02",
    ];
    assert_rows("2", "17 03 01 0A 02", &msds);
    let tags = [
        "100 1 32-bit Administrative Tag 1, 2",
        "3 octets not read 00 00 00",
    ];
    assert_rows("1", "01 0B 00 00 00 01 00 00 00 02 00 00 00", &tags);
}

#[test]
fn nested_entries_are_further_in() {
    // An End SID whose inner area has a structure, an unknown type and an octet left over.
    let octets = "05 1F 00 00 01 20 01 0D B8 00 01 00 02 00 00 00 00 00 00 00 00 \
                  0B 01 04 20 10 10 00 FF 02 0A 0B 01";
    let expected = [
        "100  5  SRv6 End SID        2001:db8:1:2::",
        "          flags             0x00",
        "          endpoint behavior 1",
        "          122  1 SRv6 SID Structure block 32, node 16, function 16, argument 0 bits",
        "          128 255 type not known in this registry 0A 0B",
        "          1 octet not read 01",
    ];
    let expected: Vec<String> = expected.iter().map(|line| closed_up(line)).collect();
    let expected: Vec<&str> = expected.iter().map(String::as_str).collect();
    assert_rows("1", octets, &expected);
    let rows = lines("1", octets);
    // The widest type has 3 digits: 3 + 2 + 3 + 2 + 2 columns further in.
    for row in &rows[1..] {
        assert!(
            row.starts_with(&" ".repeat(12)) && !row.starts_with(&" ".repeat(13)),
            "{row}"
        );
    }
    assert!(
        rows[0].starts_with("100    5  SRv6 End SID "),
        "{}",
        rows[0]
    );
    let capabilities = [
        "100 25 SRv6 Capabilities 0x0000",
        "104 1 type not known in this registry no octets",
        "106 2 type not known in this registry 07",
    ];
    assert_rows("2", "19 07 00 00 01 00 02 01 07", &capabilities);
}

#[test]
fn an_inner_area_that_overruns_is_not_read() {
    let octets = "05 15 00 00 01 20 01 0D B8 00 01 00 02 00 00 00 00 00 00 00 00 06 01";
    let rows = [
        "100 5 SRv6 End SID 2001:db8:1:2::",
        "flags 0x00",
        "endpoint behavior 1",
        "2 octets not read 06 01",
    ];
    assert_rows("1", octets, &rows);
}

#[test]
fn types_that_are_not_known_or_not_read_are_told_apart() {
    let octets = "12 03 00 00 0A FA 02 01 02 0E 04 00 00 00 01 FA 00 0E 00";
    let not_read = "this type is not read: its value is shown as it is";
    let rows = [
        "100 18 TE Default metric 10",
        "105 250 type not known in this registry 01 02",
        "109 14 Extended Administrative Group 00 00 00 01",
        not_read,
        "115 250 type not known in this registry no octets",
        "117 14 Extended Administrative Group no octets",
        not_read,
    ];
    assert_rows("0", octets, &rows);
}

#[test]
fn long_values_go_on_under_themselves() {
    let value: Vec<String> = (0..33).map(|octet| format!("{octet:02X}")).collect();
    let rows = lines("5", &format!("07 21 {}", value.join(" ")));
    let column = rows[0].find("00 01").expect("the first octets");
    let expected: Vec<String> = value.chunks(16).map(|line| line.join(" ")).collect();
    assert_eq!(rows.len(), 3);
    for (row, octets) in rows.iter().zip(&expected) {
        assert_eq!(row[column..], octets[..]);
    }
    assert!(rows[1..].iter().all(|row| row[..column].trim().is_empty()));
    let algorithms = "0, 1, 128, 129, 130, 131, 132, 133, 134, 135, 136, 137, 138, 139";
    let octets = "13 0E 00 01 80 81 82 83 84 85 86 87 88 89 8A 8B";
    let rows = lines("2", octets).join(" ");
    assert_eq!(
        closed_up(&rows),
        format!("100 19 Segment Routing Algorithm {algorithms}")
    );
}

#[test]
fn a_list_of_things_has_a_row_for_each() {
    let ranges = [
        "100 22 Segment Routing Local Block (SRLB) 2 ranges",
        "flags 0x00",
        "range size 1, SID 16 (3 octets)",
        "range size 16777215, SID 4294967295 (4 octets)",
    ];
    let octets = "16 12 00 00 00 01 01 03 00 00 10 FF FF FF 01 04 FF FF FF FF";
    assert_rows("2", octets, &ranges);
    let msds = [
        "100 23 Node MSD 2 MSDs",
        "msd type 1, value 10",
        "msd type 255, value 0",
    ];
    assert_rows("2", "17 04 01 0A FF 00", &msds);
}

#[test]
fn a_wrong_registry_is_hinted_at() {
    let hint = "No type here is known in prefix: wrong registry? \
                All are known in neighbor and router-capability.";
    let rows = lines("prefix", "12 03 00 00 0A");
    assert_eq!(rows.len(), 3);
    assert_eq!(
        closed_up(&rows[0]),
        "100 18 type not known in this registry 00 00 0A"
    );
    assert_eq!(rows[1..], ["", hint]);
    let nowhere = lines("0", "FA 00");
    assert_eq!(
        nowhere[1..],
        ["", "No type here is known in neighbor: wrong registry?"]
    );
    for (registry, octets) in [
        ("5", "01 00"),
        ("0", "FA 00 12 00"),
        ("1", "12"),
        ("1", "04 09 01"),
    ] {
        let listing = lines(registry, octets).join("\n");
        assert!(!listing.contains("wrong registry"), "{listing}");
    }
}

#[test]
fn a_base_that_may_be_an_octet_is_hinted_at() {
    for words in [
        &["12", "03", "00", "00", "0A"][..],
        &["12", "03 00 00 00"],
        &["12", "03 00 01 00"],
        &["1203", "00 00 0A"],
    ] {
        let hint = format!(
            "{} was taken for the base. If it begins the octets, the base is missing: \
             write 0 before it.",
            words[0]
        );
        let listing = shown(&[&["area", "0"], words].concat());
        assert_eq!(listing.lines().last(), Some(&hint[..]), "{listing}");
    }
    for words in [
        // The area makes sense, it does not with 12 in front either, the base is no whole octets.
        &["12", "12 03 00 00 0A"][..],
        &["12", "03 00 00"],
        &["112", "03 00 00 0A"],
        &["2", "03 00 00 0A"],
    ] {
        let listing = shown(&[&["area", "0"], words].concat());
        assert!(!listing.contains("taken for the base"), "{listing}");
    }
    // With an octet more the area would be too long.
    let listing = shown(&["area", "0", "00", &"00".repeat(65_535)]);
    assert!(!listing.contains("taken for the base"));
}

#[test]
fn places_are_as_wide_as_the_highest() {
    let listing = shown(&["area", "1", "8", "04 00 04 00"]);
    let expected = "\
prefix, 4 octets from 8 on: 2 entries

 8  4  Prefix Attribute Flags  no octets
         too short to be read: no octets, at least 1 needed
10  4  Prefix Attribute Flags  no octets
         too short to be read: no octets, at least 1 needed
";
    assert_eq!(listing, expected);
}
