//! What the library refuses, in document 01's order, and the figures that are told.

mod shared;

use shared::{TestFile, assert_told, said_to, shown};

/// Asserts that an area is refused with this line.
fn assert_refused(words: &[&str], line: &str) {
    assert_told(words, 1, &[&format!("wakkemosut: refused with {line}")]);
}

#[test]
fn a_registry_that_is_none_is_refused_with_1() {
    assert_refused(&["area", "6", "100", "12"], &no_registry("6"));
    assert_refused(&["area", "006", "100", ""], &no_registry("6"));
    assert_refused(&["area", "256", "0", ""], &no_registry("256"));
    let long = "9".repeat(40);
    assert_refused(&["area", &long, "0", "", "--json"], &no_registry(&long));
}

/// What is told of a number that no registry has.
fn no_registry(number: &str) -> String {
    format!(
        "1: the registry is not 0 to 5 (it is {number}; they are 0 neighbor, 1 prefix, \
         2 router-capability, 3 binding, 4 srv6-sid and 5 unregistered)"
    )
}

#[test]
fn an_area_over_65_535_octets_is_refused_with_2() {
    let binary = TestFile::of(vec![0; 65_536]);
    let more =
        "2: the area has over 65,535 octets (it has 65536 or more, and was not read further)";
    assert_refused(&["area", "0", "0", "--binary", binary.name()], more);
    let text = TestFile::of("00 ".repeat(70_000));
    let exact = "2: the area has over 65,535 octets (it has 70000)";
    assert_refused(&["area", "0", "0", "--file", text.name()], exact);
    let said = said_to(&["area", "5", "0", "--binary", "-"], &[0; 65_536]);
    assert_eq!((said.status, &said.out[..]), (Some(1), ""));
    assert_eq!(said.error, format!("wakkemosut: refused with {more}\n"));
    let said = said_to(&["area", "5", "0", "-"], "00".repeat(65_536).as_bytes());
    let exact = "2: the area has over 65,535 octets (it has 65536)";
    assert_eq!((said.status, &said.out[..]), (Some(1), ""));
    assert_eq!(said.error, format!("wakkemosut: refused with {exact}\n"));
}

#[test]
fn an_end_past_32_bits_is_refused_with_3() {
    let why = "3: base + area length is over 4,294,967,295";
    let six = format!("{why} (base 4294967290, 6 octets)");
    assert_refused(&["area", "0", "4294967290", "12 03 00 00 0A FF"], &six);
    let none = format!("{why} (base 4294967296, no octets)");
    assert_refused(&["area", "0", "4294967296", ""], &none);
    for base in [
        "18446744073709551615",
        "18446744073709551616",
        &"7".repeat(300),
    ] {
        let line = format!("{why} (base {base}, 1 octet)");
        assert_refused(&["area", "0", base, "00"], &line);
    }
    let five = shown(&["area", "0", "4294967290", "12 03 00 00 0A"]);
    let line = "neighbor, 5 octets from 4294967290 on: 1 entry\n";
    assert!(five.starts_with(line), "{five}");
    let empty = shown(&["area", "0", "4294967295", ""]);
    assert_eq!(empty, "neighbor, an empty area at 4294967295\n");
}

#[test]
fn refusals_come_in_the_order_of_document_01() {
    let long = TestFile::of(vec![0; 65_536]);
    let one = no_registry("6");
    assert_refused(&["area", "6", "4294967296", "--binary", long.name()], &one);
    let two = "2: the area has over 65,535 octets (it has 65536 or more, and was not read further)";
    assert_refused(&["area", "0", "4294967296", "--binary", long.name()], two);
}
