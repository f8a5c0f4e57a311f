//! The records of an area: a line each, and as JSON.

#[path = "shared/json.rs"]
mod json;
mod shared;

use std::io::Write;
use std::process::{Command, Stdio};

use json::Json;
use shared::{TestFile, WORKED, said_to, shown};

#[test]
fn the_metric_of_document_01_has_five_records() {
    let expected = "\
5 octets covered, 5 records
sub_tlvs                          100-105
  sub_tlv                         100-105
    type                          100-101  18
    length                        101-102  3
    te_default_metric             102-105  10
";
    assert_eq!(
        shown(&["area", "0", "100", "12 03 00 00 0A", "--records"]),
        expected
    );
}

/// The records of the worked area: those of docs/MEANING.md, by document 01's names.
const WORKED_RECORDS: &str = "\
48 octets covered, 33 records
sub_tlvs                          100-148
  sub_tlv                         100-105
    type                          100-101  18
    length                        101-102  3
    te_default_metric             102-105  10
  sub_tlv                         105-112
    type                          105-106  31
    length                        106-107  5
    flags                         107-108  48
    weight                        108-109  0
    sid                           109-112  24005
  sub_tlv                         112-118
    type                          112-113  33
    length                        113-114  4
    anomalous                     114-115  1
    delay                         115-118  1000
  sub_tlv                         118-148
    type                          118-119  43
    length                        119-120  28
    flags                         120-121  0
    algorithm                     121-122  0
    weight                        122-123  0
    endpoint_behavior             123-125  5
    srv6_sid                      125-141
    sub_tlvs                      142-148
      sub_tlv                     142-148
        type                      142-143  1
        length                    143-144  4
        locator_block_length      144-145  40
        locator_node_length       145-146  16
        function_length           146-147  16
        argument_length           147-148  0
raw                               148-152
";

#[test]
fn the_worked_area_has_the_records_of_its_page() {
    let records = shown(&["area", "--records", "0", "100", WORKED]);
    assert_eq!(records, WORKED_RECORDS);
}

#[test]
fn an_empty_area_has_no_records() {
    let records = shown(&["area", "--records", "4", "7", ""]);
    assert_eq!(records, "0 octets covered, 0 records\n");
    let json = shown(&["area", "--json", "4", "7", ""]);
    let expected = r#"{"registry":"srv6-sid","base":7,"covered":0,"written":0,"records":[]}"#;
    assert_eq!(json, format!("{expected}\n"));
}

#[test]
fn a_number_of_64_bits_is_whole() {
    let octets = "02 08 FF FF FF FF FF FF FF FF";
    let records = shown(&["area", "--records", "1", "0", octets]);
    assert_eq!(
        records.lines().last(),
        Some("      tag                         2-10  18446744073709551615")
    );
    let json = shown(&["area", "--json", "1", "0", octets]);
    let tag = concat!(
        r#"{"position":5,"label":"tag","shape":"U64","registry":"prefix","start":2,"end":10,"#,
        r#""number":"18446744073709551615"}"#
    );
    assert!(json.contains(tag), "{json}");
    assert!(Json::of(&json).is_some());
}

/// A leaf of the neighbor registry in JSON, at a position of the tape.
fn leaf(position: u8, label: &str, shape: &str, (start, end): (u8, u8), number: u8) -> String {
    let head = head(position, label, shape, (start, end));
    format!(r#"{head},"number":{number}}}"#)
}

/// What a record of the neighbor registry begins with in JSON.
fn head(position: u8, label: &str, shape: &str, (start, end): (u8, u8)) -> String {
    let place = format!(r#""registry":"neighbor","start":{start},"end":{end}"#);
    format!(r#"{{"position":{position},"label":"{label}","shape":"{shape}",{place}"#)
}

#[test]
fn the_metric_is_one_object() {
    let json = shown(&["area", "0", "100", "12 03 00 00 0A", "--json"]);
    let leaves = [
        leaf(2, "type", "U8", (100, 101), 18),
        leaf(3, "length", "U8", (101, 102), 3),
        leaf(4, "te_default_metric", "U32", (102, 105), 10),
    ];
    let array = head(0, "sub_tlvs", "Array", (100, 105));
    let object = head(1, "sub_tlv", "Object", (100, 105));
    let records = format!(
        r#"[{array},"children":[{object},"children":[{}]}}]}}]"#,
        leaves.join(",")
    );
    let numbers = r#""registry":"neighbor","base":100,"covered":5,"written":5"#;
    assert_eq!(json, format!("{{{numbers},\"records\":{records}}}\n"));
    assert!(Json::of(&json).is_some());
}

/// All records of a list and inside them, in the order of going down.
fn all<'json>(records: &'json Json, found: &mut Vec<&'json Json>) {
    for record in records.values() {
        found.push(record);
        if let Some(children) = record.member("children") {
            all(children, found);
        }
    }
}

/// A line of `--records` for a record in JSON, at a depth.
fn add_lines(records: &Json, depth: usize, lines: &mut Vec<String>) {
    for record in records.values() {
        let text = |name: &str| match record.member(name) {
            Some(Json::Text(text) | Json::Number(text)) => text.clone(),
            _ => String::new(),
        };
        let number = match record.member("number") {
            Some(_) => format!("  {}", text("number")),
            None => String::new(),
        };
        let (indent, width) = (2 * depth, 34 - 2 * depth);
        let (label, start, end) = (text("label"), text("start"), text("end"));
        lines.push(format!(
            "{:indent$}{label:<width$}{start}-{end}{number}",
            ""
        ));
        if let Some(children) = record.member("children") {
            add_lines(children, depth + 1, lines);
        }
    }
}

#[test]
fn both_forms_say_the_same() {
    for (registry, octets) in [
        ("0", WORKED),
        (
            "0",
            "06 04 C0 00 02 01 0C 10 20 01 0D B8 00 00 00 00 00 00 00 00 00 00 00 01 FF",
        ),
        ("1", "02 09 00 00 00 00 00 00 00 01 FF 04 01 A0 09"),
        (
            "2",
            "02 09 C0 00 03 E8 01 03 00 3E 80 17 04 01 0A 02 00 19 05 40 00 01 01 07 13 02 00 01",
        ),
        ("3", "01 03 00 00 07"),
        ("5", "00 00 01 02 03 04 05"),
    ] {
        let json = shown(&["area", registry, "1000", octets, "--json"]);
        let object = Json::of(&json).expect("valid JSON");
        let names = ["registry", "base", "covered", "written", "records"];
        assert_eq!(object.names(), names);
        let records = object.member("records").unwrap();
        let mut lines = Vec::new();
        add_lines(records, 0, &mut lines);
        let plain = shown(&["area", registry, "1000", octets, "--records"]);
        assert_eq!(plain.lines().skip(1).collect::<Vec<_>>(), lines);
        let mut found = Vec::new();
        all(records, &mut found);
        for (at, record) in found.iter().enumerate() {
            let names = ["position", "label", "shape", "registry", "start", "end"];
            assert_eq!(record.names()[..6], names);
            assert_eq!(record.names().len(), 7, "{record:?}");
            assert_eq!(
                record.member("position"),
                Some(&Json::Number(at.to_string()))
            );
        }
    }
}

#[test]
fn values_have_their_member() {
    let octets = "06 04 C0 00 02 01 0C 10 20 01 0D B8 00 00 00 00 00 00 00 00 00 00 00 01 FF";
    let json = shown(&["area", "0", "0", octets, "--json"]);
    let object = Json::of(&json).expect("valid JSON");
    let mut found = Vec::new();
    all(object.member("records").unwrap(), &mut found);
    let values: Vec<_> = found
        .iter()
        .filter_map(|record| record.member("address"))
        .collect();
    let text = |text: &str| Json::Text(text.into());
    assert_eq!(values, [&text("192.0.2.1"), &text("2001:db8::1")]);
    let octets: Vec<_> = found
        .iter()
        .filter_map(|record| record.member("octets"))
        .collect();
    assert_eq!(octets, [&text("FF")]);
}

#[test]
fn a_long_area_is_valid_json() {
    // 21,845 times the entry of registry 1 that needs the most records: 1 + 7 x 65,535 / 3.
    let area = [0x04, 0x01, 0xA0].repeat(21_845);
    let file = TestFile::of(&area);
    let json = shown(&["area", "1", "0", "--binary", file.name(), "--json"]);
    let object = Json::of(&json).expect("valid JSON");
    assert_eq!(
        object.member("written"),
        Some(&Json::Number("152916".into()))
    );
    let mut found = Vec::new();
    all(object.member("records").unwrap(), &mut found);
    assert_eq!(found.len(), 152_916);
    let said = said_to(&["area", "1", "0", "--binary", "-", "--records"], &area);
    assert_eq!((said.status, said.out.lines().count()), (Some(0), 152_917));
}

#[test]
fn another_reader_takes_it_too() {
    let json = shown(&["area", "0", "100", WORKED, "--json"]);
    let mut python = Command::new("python3");
    python.args(["-m", "json.tool"]).stdin(Stdio::piped());
    let Ok(mut child) = python.stdout(Stdio::null()).stderr(Stdio::null()).spawn() else {
        eprintln!("python3 is not there: this test checked nothing");
        return;
    };
    child
        .stdin
        .take()
        .unwrap()
        .write_all(json.as_bytes())
        .unwrap();
    assert!(child.wait().unwrap().success());
}
