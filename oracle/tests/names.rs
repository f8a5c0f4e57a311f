//! The names that the module's descriptors give are those in its text.

mod source;

#[test]
fn the_listing_is_that_of_the_text() {
    assert_eq!(oracle::listing(), source::listing());
}

#[test]
fn the_text_has_85_names() {
    assert_eq!(source::listing().lines().count(), 85);
}
