//! Words that are wrong, each named, and the words that ask for help.

mod shared;

use std::ffi::OsString;
use std::os::unix::ffi::OsStringExt;

use shared::{POINTER, assert_told, assert_usage, said, shown};

#[test]
fn no_words_give_the_usage() {
    let said = said::<&str>(&[]);
    assert_eq!((said.status, &said.out[..]), (Some(2), ""));
    assert!(
        said.error.starts_with("usage: wakkemosut area "),
        "{}",
        said.error
    );
    assert_eq!(said.error.lines().last(), Some(POINTER));
}

#[test]
fn help_is_one_page() {
    let page = shown(&["--help"]);
    for words in [
        &["help"][..],
        &["-h"],
        &["area", "--help"],
        &["area", "0", "-h"],
    ] {
        assert_eq!(shown(words), page, "{words:?}");
    }
    for line in [
        "  0  neighbor           sub-TLVs of neighbors (TLVs 22 and 222)",
        "  1  prefix             sub-TLVs of reachable prefixes (TLVs 27, 135, 235, 236 and 237)",
        "  2  router-capability  sub-TLVs of router capabilities (TLV 242)",
        "  3  binding            sub-TLVs of SID/label bindings (TLVs 149 and 150)",
        "  4  srv6-sid           sub-sub-TLVs of SRv6 SIDs",
    ] {
        assert!(page.lines().any(|found| found == line), "{line}");
    }
    for word in [
        "--file",
        "--binary",
        "--records",
        "--json",
        "--version",
        "exit status",
        "BASE",
    ] {
        assert!(page.contains(word), "{word}");
    }
}

#[test]
fn the_example_of_the_page_prints_what_the_page_says() {
    let page = shown(&["--help"]);
    let (_, example) = page.split_once("example: wakkemosut ").expect("an example");
    let (words, printed) = example.split_once("\nprints\n").expect("what it prints");
    let words: Vec<&str> = words.split(' ').collect();
    let printed: String = printed
        .lines()
        .map(|line| format!("{}\n", line.trim_start()))
        .collect();
    assert_eq!(shown(&words), printed);
}

#[test]
fn the_version_is_told() {
    let version = format!("wakkemosut {}\n", env!("CARGO_PKG_VERSION"));
    for words in [
        &["--version"][..],
        &["-V"],
        &["area", "--version"],
        &["area", "x", "-V"],
    ] {
        assert_eq!(shown(words), version, "{words:?}");
    }
}

#[test]
fn a_command_or_option_that_is_none_is_named() {
    assert_usage(
        &["aera", "0"],
        "there is no command 'aera'; the first word is 'area'",
    );
    assert_usage(
        &["0", "100", "12"],
        "there is no command '0'; the first word is 'area'",
    );
    assert_usage(&["--records"], "'--records' stands behind 'area'");
    assert_usage(&["--file=f", "area"], "'--file=f' stands behind 'area'");
    assert_usage(&["--jsn"], "there is no option '--jsn'");
    assert_usage(
        &["area", "0", "0", "12", "--jsn"],
        "there is no option '--jsn'",
    );
    assert_usage(&["area", "-1", "0", "12"], "there is no option '-1'");
    assert_usage(&["area", "0", "-1", "12"], "there is no option '-1'");
    assert_usage(&["area", "0", "0", "-12"], "there is no option '-12'");
}

#[test]
fn words_that_are_not_there_are_told() {
    let write = "write 'wakkemosut area REGISTRY BASE OCTETS..'";
    assert_usage(&["area"], &format!("no registry; {write}"));
    assert_usage(&["area", "--json"], &format!("no registry; {write}"));
    assert_usage(&["area", "neighbor"], &format!("no base; {write}"));
    let empty = "no octets behind the base '100'; for an empty area write ''";
    assert_usage(&["area", "neighbor", "100"], empty);
    assert_usage(&["area", "neighbor", "100", "--"], empty);
}

#[test]
fn a_registry_that_is_none_is_named() {
    let all = "they are 0 neighbor, 1 prefix, 2 router-capability, 3 binding, 4 srv6-sid \
               and 5 unregistered";
    for word in [
        "neighbour",
        "",
        "neighbor ",
        "0x0",
        "+1",
        "1.0",
        "routercapabilities",
    ] {
        assert_usage(
            &["area", word, "0", "12"],
            &format!("'{word}' is no registry; {all}"),
        );
    }
}

#[test]
fn a_registry_has_a_number_and_names() {
    let expected = shown(&["area", "2", "0", "18 01 05"]);
    for word in [
        "02",
        "router-capability",
        "RouterCapability",
        "ROUTER_CAPABILITY",
    ] {
        assert_eq!(shown(&["area", word, "0", "18 01 05"]), expected, "{word}");
    }
}

#[test]
fn a_base_is_decimal_digits() {
    let why = "is no number in decimal digits; it stands before the octets, such as 100, \
               or 0 if it does not matter";
    for word in [
        "0x64", "1e3", "1_000", "", "1 0", "+1", "1.5", "hundred", "12:03", "-",
    ] {
        let message = format!("the base '{word}' {why}");
        assert_usage(&["area", "0", word, "12"], &message);
    }
    assert_usage(
        &["area", "0", "--", "-1", "12"],
        &format!("the base '-1' {why}"),
    );
    for (word, base) in [("010", "10"), ("0899", "899"), ("000", "0")] {
        let said = shown(&["area", "0", word, "13 00"]);
        assert!(
            said.starts_with(&format!("neighbor, 2 octets from {base} on: 1 entry\n")),
            "{said}"
        );
    }
}

#[test]
fn octets_that_are_none_are_named() {
    let write =
        |digit| format!("is not whole octets: an octet has two hex digits (write 0{digit})");
    let glued = ["area", "0", "100", "12", "3", "0", "0", "A"];
    assert_usage(&glued, &format!("'3' {}", write('3')));
    assert_usage(
        &["area", "0", "100", "12 03 00 00 A"],
        &format!("'A' {}", write('A')),
    );
    let odd = "'123' is not whole octets: it has 3 hex digits, and an octet has two";
    assert_usage(&["area", "0", "0", "123"], odd);
    let digit = "'1G' is not octets in hex: 'G' is no hex digit; \
                 write octets as in 12 03 00 or 12:03:00";
    assert_usage(&["area", "0", "0", "12", "1G"], digit);
    let text = "'metric' is not octets in hex: 'm' is no hex digit; \
                write octets as in 12 03 00 or 12:03:00";
    assert_usage(&["area", "0", "0", "metric"], text);
    let empty = "has an empty piece: octets stand on both sides of a ':', '-' or '.', \
                 and a hex dump is written without its offsets and characters";
    for word in ["12::03", "12:", ".12", "0x0100:"] {
        assert_usage(
            &["area", "0", "0", word, "00"],
            &format!("'{word}' {empty}"),
        );
    }
    let offset = "'0000' looks like an offset in a hex dump, which would be read as octets: leave \
                  the column out; octets that only look so are written with spaces, as 00 00";
    let dump = ["area", "0", "0", "0000", "12", "03", "00", "00", "0A"];
    assert_usage(&dump, offset);
    let option = ["area", "0", "0", "--", "-12"];
    assert_usage(&option, &format!("'-12' {empty}"));
}

#[test]
fn a_long_word_is_not_repeated_whole() {
    let digits = "1".repeat(101);
    let beginning = "1".repeat(48);
    let message = format!(
        "'{beginning}..' (101 characters) is not whole octets: it has 101 hex digits, \
         and an octet has two"
    );
    assert_usage(&["area", "0", "0", &digits], &message);
}

#[test]
fn options_that_are_wrong_are_named() {
    assert_usage(&["area", "0", "0", "--file"], "--file is without its FILE");
    assert_usage(
        &["area", "0", "0", "--binary", "--json"],
        "--binary is without its FILE",
    );
    let twice = ["area", "0", "0", "--file", "a", "--file=b"];
    assert_usage(&twice, "--file is there twice");
    assert_usage(
        &["area", "--json", "0", "0", "12", "--json"],
        "--json is there twice",
    );
    let word = "--records takes no word, so '--records=1' is wrong";
    assert_usage(&["area", "0", "0", "12", "--records=1"], word);
    let both = ["area", "0", "0", "12", "--records", "--json"];
    assert_usage(&both, "--records and --json do not go together");
}

#[test]
fn octets_come_from_one_place() {
    let one = "octets come from one place";
    let beside = |option| format!("{one}: '12' stands beside {option}");
    assert_usage(&["area", "0", "0", "12", "--file", "f"], &beside("--file"));
    assert_usage(
        &["area", "0", "0", "--binary", "f", "12"],
        &beside("--binary"),
    );
    let message = format!("{one}: '-' stands beside --file");
    assert_usage(&["area", "0", "0", "-", "--file", "-"], &message);
    let message = format!("{one}: --file and --binary do not go together");
    assert_usage(&["area", "0", "0", "--file=f", "--binary=f"], &message);
    let message = format!("{one}: '-' is standard input, and other octets stand beside it");
    assert_usage(&["area", "0", "0", "-", "12"], &message);
    assert_usage(&["area", "0", "0", "12", "-"], &message);
    assert_usage(&["area", "0", "0", "-", "-"], &message);
}

#[test]
fn words_that_are_no_text_are_refused() {
    let words = [
        "area".into(),
        "0".into(),
        OsString::from_vec(vec![b'1', 0xFF]),
    ];
    assert_usage(&words, "the word '1\u{fffd}' is not UTF-8");
    let escape = ["area", "0", "0", "12\u{1b}[2J"];
    let message = "'12\\u{1b}[2J' is not octets in hex: '\\u{1b}' is no hex digit; \
                   a file's octets themselves are read by --binary";
    assert_usage(&escape, message);
}

#[test]
fn what_is_typed_wrong_comes_before_a_refusal() {
    let all = "'0x' has no hex digits; an octet has two";
    assert_usage(&["area", "6", "4294967296", "0x"], all);
    let file =
        "wakkemosut: './no/such/file' cannot be read: No such file or directory (os error 2)";
    assert_told(&["area", "6", "0", "--file", "./no/such/file"], 2, &[file]);
}
