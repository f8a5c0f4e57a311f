//! What the examples print, worked out by hand; and that the page shows the first one as it is.

use std::env::{self, consts::EXE_SUFFIX};
use std::ffi::OsString;
use std::fs;
use std::path::{Path, PathBuf};
use std::process::Command;

/// What the examples print, by name.
const PRINTED: [(&str, &str); 3] = [
    ("listing", LISTING),
    ("metric", "metric 10, octets 102..105\n"),
    ("slim", SLIM),
];

/// Document 01: a metric of 24 bits, an address, a value of an unknown type; the last octet is
/// beside the array. Types and lengths take an octet each, and 100 is added to each place.
const LISTING: &str = "\
15 octets covered, 14 records
sub_tlvs                          100-115
  sub_tlv                         100-105
    type                          100-101  18
    length                        101-102  3
    te_default_metric             102-105  10
  sub_tlv                         105-111
    type                          105-106  6
    length                        106-107  4
    ipv4_interface_address        107-111  192.0.2.1
  sub_tlv                         111-115
    type                          111-112  255
    length                        112-113  2
    value                         113-115  [BE, EF]
raw                               115-116  [12]
";

/// Five records an area, its metric at the third octet.
const SLIM: &str = "\
10 records: 10 at 102, 20 at 202
5 records: 10 at 102
10 records: 10 at 102, 30 at 202
5 records: 10 at 102
";

/// The folder that cargo builds examples into: beside that of this test.
fn built() -> PathBuf {
    let own = env::current_exe().expect("a test knows its own place");
    let of_profile = own.parent().and_then(Path::parent);
    of_profile.expect("a test is in deps").join("examples")
}

/// What an example prints.
fn printed(name: &str) -> String {
    let program = built().join(format!("{name}{EXE_SUFFIX}"));
    let output = Command::new(&program).output().unwrap_or_else(|wrong| {
        panic!(
            "{}: {wrong}; `cargo build --package wakkemosut --examples` builds it",
            program.display()
        )
    });
    assert!(output.status.success(), "{name}: {output:?}");
    String::from_utf8(output.stdout).expect("an example prints text")
}

#[test]
fn examples_print_what_they_should() {
    for (name, expected) in PRINTED {
        assert_eq!(printed(name), expected, "{name}");
    }
}

#[test]
fn no_example_is_left_out() {
    let folder = Path::new(env!("CARGO_MANIFEST_DIR")).join("examples");
    let files = fs::read_dir(folder).expect("there are examples");
    let mut found: Vec<_> = files.map(|file| file.unwrap().file_name()).collect();
    found.sort();
    assert_eq!(
        found,
        PRINTED.map(|(name, _)| OsString::from(format!("{name}.rs")))
    );
}

#[test]
fn the_page_shows_the_first_example_and_what_it_prints() {
    let page = include_str!("../README.md");
    let (_about, program) = include_str!("../examples/metric.rs")
        .split_once("\n\n")
        .unwrap();
    assert!(page.contains(&format!("```rust\n{program}```\n")));
    assert!(page.contains(&format!("It prints `{}`.", PRINTED[1].1.trim_end())));
}
