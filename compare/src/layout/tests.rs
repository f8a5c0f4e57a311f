//! Cases of document 02, request 09, worked out by hand.

use super::*;

/// The records of document 01's listing, and the words of each on a slim tape.
const LISTING: [(Record, [u64; 4]); 5] = [
    (
        [1796, 100, 105, 0, 1, 5],
        [1796, 450_971_566_180, 0, 21_474_836_481],
    ),
    (
        [2095, 100, 105, 0, 2, 5],
        [2095, 450_971_566_180, 0, 21_474_836_482],
    ),
    ([0, 100, 101, 18, 0, 0], [0, 433_791_696_996, 18, 0]),
    ([1, 101, 102, 3, 0, 0], [1, 438_086_664_293, 3, 0]),
    ([527, 102, 105, 10, 0, 0], [527, 450_971_566_182, 10, 0]),
];

/// Records with places and positions at their limits, and the words of each on a slim tape.
const LIMITS: [(Record, [u64; 4]); 5] = [
    ([0; 6], [0; 4]),
    (
        [7, 4_294_967_295, 0, 8, 0, 4_294_967_295],
        [7, 4_294_967_295, 8, 18_446_744_069_414_584_320],
    ),
    (
        [7, 0, 4_294_967_295, 8, 4_294_967_295, 0],
        [7, 18_446_744_069_414_584_320, 8, 4_294_967_295],
    ),
    (
        [u64::MAX, 1, 4_294_967_294, u64::MAX, 4_294_967_294, 1],
        [
            u64::MAX,
            18_446_744_065_119_617_025,
            u64::MAX,
            8_589_934_590,
        ],
    ),
    (
        [
            0,
            4_294_967_295,
            4_294_967_295,
            0,
            4_294_967_295,
            4_294_967_295,
        ],
        [0, u64::MAX, 0, u64::MAX],
    ),
];

#[test]
fn a_slim_record_has_its_places_in_one_word_and_its_positions_in_one() {
    for (record, words) in LISTING.into_iter().chain(LIMITS) {
        let mut place = [9; 4];
        Layout::Slim.write(record, &mut place);
        assert_eq!(place, words);
        assert_eq!(Layout::Slim.record(&words), record);
    }
}

#[test]
fn a_usual_record_has_a_word_for_each_number() {
    let record = [1, 2, u64::MAX, 4, 5, 6];
    let mut place = [9; 6];
    Layout::Usual.write(record, &mut place);
    assert_eq!(place, record);
    assert_eq!(Layout::Usual.record(&record), record);
}

#[test]
fn records_are_written_one_after_another() {
    let records = [[1, 2, 3, 4, 5, 6], [7, 8, 9, 10, 11, 12]];
    let mut places = [0; 12];
    Layout::Usual.write_all(records, &mut places);
    assert_eq!(places, [1, 2, 3, 4, 5, 6, 7, 8, 9, 10, 11, 12]);
    let mut places = [0; 8];
    Layout::Slim.write_all(records, &mut places);
    let slim = [1, 12_884_901_890, 4, 25_769_803_781];
    assert_eq!(places[..4], slim);
    assert_eq!(places[4..], [7, 38_654_705_672, 10, 51_539_607_563]);
}

#[test]
#[should_panic(expected = "4294967296 and 0 are no halves of a word")]
fn a_place_over_half_a_word_is_no_slim_one() {
    Layout::Slim.write([0, 4_294_967_296, 0, 0, 0, 0], &mut [0; 4]);
}

#[test]
#[should_panic(expected = "6 words are no slim record")]
fn six_words_are_no_slim_record() {
    Layout::Slim.record(&[0; 6]);
}

#[test]
fn the_header_names_the_words_of_a_record() {
    assert_eq!(Layout::Usual.header(7), [7, 4, 6, 0]);
    assert_eq!(Layout::Slim.header(7), [7, 4, 4, 0]);
}

#[test]
fn the_room_is_what_is_left_of_the_header_rounded_down() {
    let words = [0, 3, 4, 7, 8, 9, 10, 11, 12, 15, 16, 4_004];
    let usual = [0, 0, 0, 0, 0, 0, 1, 1, 1, 1, 2, 666];
    let slim = [0, 0, 0, 0, 1, 1, 1, 1, 2, 2, 3, 1_000];
    assert_eq!(words.map(|words| Layout::Usual.room(words)), usual);
    assert_eq!(words.map(|words| Layout::Slim.room(words)), slim);
}

#[test]
#[cfg(target_pointer_width = "64")]
fn a_slim_tape_has_room_for_no_more_than_4_294_967_295() {
    let words = [17_179_869_183, 17_179_869_184, 17_179_869_188, 1 << 62];
    let slim = [4_294_967_294, 4_294_967_295, 4_294_967_295, 4_294_967_295];
    assert_eq!(words.map(|words| Layout::Slim.room(words)), slim);
    assert_eq!(Layout::Usual.room(30_000_000_004), 5_000_000_000);
}

#[test]
fn a_slim_record_holds_the_lower_halves_of_places_and_positions() {
    let high = 7 << 32;
    let record = [high + 1, high + 2, high + 3, high + 4, high + 5, u64::MAX];
    assert_eq!(Layout::Usual.fitted(record), record);
    let slim = [high + 1, 2, 3, high + 4, 5, 4_294_967_295];
    assert_eq!(Layout::Slim.fitted(record), slim);
}

#[test]
fn each_layout_has_another() {
    assert_eq!(
        Layout::ALL.map(Layout::other),
        [Layout::Slim, Layout::Usual]
    );
}
