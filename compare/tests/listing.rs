//! The listing of names: what the repository expects against the oracle.

/// What the names program of the repository is to print.
const EXPECTED: &str = include_str!("../../crates/names/stdout");

#[test]
fn the_expected_listing_is_that_of_the_rust() {
    assert_eq!(EXPECTED, oracle::listing());
}
