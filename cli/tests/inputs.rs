//! Octets from files and from standard input.

mod shared;

use shared::{POINTER, TestFile, assert_told, assert_usage, said_to, shown};

/// What a metric of 10 at place 100 is shown as.
const METRIC: &str = "\
neighbor, 5 octets from 100 on: 1 entry

100  18  TE Default metric  10
";

/// The octets of that metric.
const METRIC_OCTETS: [u8; 5] = [0x12, 0x03, 0x00, 0x00, 0x0A];

#[test]
fn hex_is_read_from_standard_input() {
    for option in [&["-"][..], &["--file", "-"], &["--file=-"], &["--", "-"]] {
        let words = [&["area", "0", "100"], option].concat();
        let said = said_to(&words, b"12 03\r\n00:00\n\t0x0A\n");
        assert_eq!((said.status, &said.error[..]), (Some(0), ""), "{option:?}");
        assert_eq!(said.out, METRIC, "{option:?}");
    }
}

#[test]
fn octets_themselves_are_read_from_standard_input() {
    let said = said_to(&["area", "--binary", "-", "0", "100"], &METRIC_OCTETS);
    assert_eq!((said.status, &said.error[..]), (Some(0), ""));
    assert_eq!(said.out, METRIC);
}

#[test]
fn files_are_read() {
    let text = TestFile::of("12-03-00-00-0a\n");
    assert_eq!(shown(&["area", "0", "100", "--file", text.name()]), METRIC);
    let joined = format!("--file={}", text.name());
    assert_eq!(shown(&["area", &joined, "0", "100"]), METRIC);
    let binary = TestFile::of(METRIC_OCTETS);
    assert_eq!(
        shown(&["area", "0", "--binary", binary.name(), "100"]),
        METRIC
    );
}

#[test]
fn an_empty_input_is_an_empty_area() {
    let empty = "prefix, an empty area at 7\n";
    let file = TestFile::of("");
    let spaces = TestFile::of(" \n\r\n\t\n");
    for words in [
        &["area", "1", "7", ""][..],
        &["area", "1", "7", " ", ""],
        &["area", "1", "7", "-"],
        &["area", "1", "7", "--binary", "-"],
        &["area", "1", "7", "--file", file.name()],
        &["area", "1", "7", "--file", spaces.name()],
        &["area", "1", "7", "--binary", file.name()],
    ] {
        assert_eq!(shown(words), empty, "{words:?}");
    }
}

#[test]
fn a_wrong_text_is_told_with_its_line() {
    let file = TestFile::of("12 03\n00 0 0A\n");
    let why = "line 2: '0' is not whole octets: an octet has two hex digits (write 00)";
    let message = format!("'{}', {why}", file.name());
    assert_usage(&["area", "0", "0", "--file", file.name()], &message);
    let said = said_to(&["area", "0", "0", "-"], b"12 03\n00 0 0A\n");
    assert_eq!((said.status, &said.out[..]), (Some(2), ""));
    assert_eq!(
        said.error,
        format!("wakkemosut: standard input, {why}\n{POINTER}\n")
    );
}

#[test]
fn a_mark_that_editors_write_in_front_is_passed_over() {
    let said = said_to(
        &["area", "0", "100", "-"],
        "\u{feff}12 03 00 00 0A\r\n".as_bytes(),
    );
    assert_eq!((said.status, &said.out[..]), (Some(0), METRIC));
    let said = said_to(&["area", "0", "100", "-"], "12 \u{feff}03".as_bytes());
    assert_eq!(said.status, Some(2));
}

#[test]
fn a_hex_dump_is_refused() {
    let why = "looks like an offset in a hex dump, which would be read as octets: leave the \
               column out; octets that only look so are written with spaces, as 00 00";
    for (dump, line, offset) in [
        ("0000  12 03 00 00 0a\n", 1, "0000"),
        ("00000000  12 03 00 00\n00000004  0a\n", 1, "00000000"),
        ("0040  12 03 00 00\n0044  0a 00\n", 2, "0044"),
        ("0050  12 03 00 00 0a\n", 1, "0050"),
        ("0000  1203 0000 0a1f 0530\n0008  0000 5dc5\n", 1, "0000"),
        ("0x0000  1203 0000 0a\n", 1, "0x0000"),
    ] {
        let said = said_to(&["area", "0", "80", "-"], dump.as_bytes());
        let told = format!("line {line}: '{offset}' {why}");
        assert_eq!(
            said.error,
            format!("wakkemosut: standard input, {told}\n{POINTER}\n")
        );
        assert_eq!((said.status, &said.out[..]), (Some(2), ""));
    }
    for dump in [
        "00000000: 1203 0000 0a\n",
        "\t0x0000:  1203 0000 0a\n",
        "0000000 0312 0000 000a\n",
        "0000000 12 03 00 00 0a\n0000005\n",
        "00000000  12 03 00 00 0a  |.....|\n",
        "0000   12 03 00 00 0a   .....\n",
    ] {
        let said = said_to(&["area", "0", "0", "-"], dump.as_bytes());
        assert_eq!(
            (said.status, &said.out[..]),
            (Some(2), ""),
            "{dump}{}",
            said.error
        );
        assert_eq!(said.error.lines().count(), 2, "{dump}{}", said.error);
    }
}

#[test]
fn a_file_in_the_place_of_octets_is_seen() {
    let hint = "a file is named behind --file or --binary";
    let message = format!(
        "'Cargo' in 'Cargo.toml' is not octets in hex: 'r' is no hex digit; \
         write octets as in 12 03 00 or 12:03:00; {hint}"
    );
    // Tests run in the folder of their package.
    assert_usage(&["area", "0", "0", "Cargo.toml"], &message);
    let none = message
        .replace("toml", "tom")
        .replace(&format!("; {hint}"), "");
    assert_usage(&["area", "0", "0", "Cargo.tom"], &none);
}

#[test]
fn octets_that_are_no_text_are_told_apart() {
    let message =
        "standard input is no text in UTF-8; a file's octets themselves are read by --binary";
    let said = said_to(&["area", "0", "0", "-"], &[0x12, 0xFF]);
    assert_eq!(said.error, format!("wakkemosut: {message}\n{POINTER}\n"));
    assert_eq!((said.status, &said.out[..]), (Some(2), ""));
    let said = said_to(&["area", "0", "0", "-"], &METRIC_OCTETS);
    let message = "standard input, line 1: '\\u{12}\\u{3}\\0\\0' is not octets in hex: \
                   '\\u{12}' is no hex digit; a file's octets themselves are read by --binary";
    assert_eq!(said.error, format!("wakkemosut: {message}\n{POINTER}\n"));
    assert_eq!((said.status, &said.out[..]), (Some(2), ""));
}

#[test]
fn a_file_that_cannot_be_read_is_named() {
    for option in ["--file", "--binary"] {
        let missing =
            "wakkemosut: './no/such' cannot be read: No such file or directory (os error 2)";
        assert_told(&["area", "0", "0", option, "./no/such"], 2, &[missing]);
        let folder = "wakkemosut: '.' cannot be read: Is a directory (os error 21)";
        assert_told(&["area", "0", "0", option, "."], 2, &[folder]);
    }
}

#[test]
fn the_longest_area_is_read_whole() {
    // 255 entries of 257 octets; the value of each is 255 zeros.
    let entry: Vec<u8> = [&[0xFE, 0xFF][..], &[0; 255]].concat();
    let area = entry.repeat(255);
    assert_eq!(area.len(), 65_535);
    let head = "neighbor, 65535 octets from 0 on: 255 entries\n";
    let binary = TestFile::of(&area);
    let hex: String = area.iter().map(|octet| format!("{octet:02x}\n")).collect();
    let text = TestFile::of(&hex);
    for words in [
        ["area", "0", "0", "--binary", binary.name()],
        ["area", "0", "0", "--file", text.name()],
    ] {
        let said = shown(&words);
        assert!(said.starts_with(head), "{}", &said[..80]);
        // A line for each 16 octets of a value, 16 lines for 255.
        let hint = "\nNo type here is known in neighbor: wrong registry?\n";
        assert!(said.ends_with(hint));
        assert_eq!(said.lines().count(), 2 + 255 * 16 + 2);
    }
    let said = said_to(&["area", "0", "0", "--binary", "-"], &area);
    assert!(said.out.starts_with(head) && said.status == Some(0));
    let said = said_to(&["area", "0", "0", "-"], hex.as_bytes());
    assert!(said.out.starts_with(head) && said.status == Some(0));
}

#[test]
fn a_long_text_is_not_read_on() {
    let limit = 16 << 20;
    let spaces = TestFile::of(vec![b' '; limit]);
    let empty = "neighbor, an empty area at 0\n";
    assert_eq!(shown(&["area", "0", "0", "--file", spaces.name()]), empty);
    let said = said_to(&["area", "0", "0", "-"], &vec![b' '; limit + 1]);
    let message = "standard input has over 16 MiB of text and was not read further; \
                   an area has at most 65,535 octets";
    assert_eq!(said.error, format!("wakkemosut: {message}\n"));
    assert_eq!((said.status, &said.out[..]), (Some(2), ""));
}

#[test]
fn an_input_without_end_is_not_read_on() {
    let text = "wakkemosut: '/dev/zero' has over 16 MiB of text and was not read further; \
                an area has at most 65,535 octets";
    assert_told(&["area", "0", "0", "--file", "/dev/zero"], 2, &[text]);
    let binary = "wakkemosut: refused with 2: the area has over 65,535 octets \
                  (it has 65536 or more, and was not read further)";
    assert_told(&["area", "0", "0", "--binary", "/dev/zero"], 1, &[binary]);
}
