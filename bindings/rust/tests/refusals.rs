//! Every refusal that the wrapper's types let through, in both layouts, and what it leaves.

mod shared;

use shared::{in_both_layouts, put};
use wakkemosut::{
    LONGEST_AREA, LONGEST_NAME, Layout, Position, Refusal, Registry, Tape, most_records, name,
};

/// The words of a tape with the records of a metric of 10 at base 100, and no more room.
fn metric<L: Layout>() -> Vec<u64> {
    let mut words = vec![0; Tape::<L>::words_in_layout(5)];
    let mut tape = Tape::<L>::cleared_in_layout(&mut words).unwrap();
    let area = [0x12, 0x03, 0x00, 0x00, 0x0A];
    tape.push(Registry::Neighbor, 100, &area).unwrap();
    words
}

/// Asserts that a call on these words is refused so, and leaves them as they are.
fn assert_refused<L: Layout, Given>(
    words: &[u64],
    refusal: Refusal,
    call: impl Fn(&mut Tape<'_, L>) -> Result<Given, Refusal>,
) {
    let mut lent = words.to_vec();
    let mut tape = Tape::in_layout(&mut lent);
    assert_eq!(call(&mut tape).err(), Some(refusal), "of {words:?}");
    assert_eq!(lent, words, "after {refusal}");
}

/// Asserts that a walk and a push are refused so, and leave the words as they are.
fn assert_area_refused<L: Layout>(words: &[u64], refusal: Refusal, base: u64, area: &[u8]) {
    for registry in Registry::ALL {
        assert_refused::<L, _>(words, refusal, |tape| tape.walk(*registry, base, area));
        assert_refused::<L, _>(words, refusal, |tape| tape.push(*registry, base, area));
    }
}

in_both_layouts! {
    an_area_over_65_535_octets_is_refused,
    an_area_past_32_bits_is_refused,
    words_that_are_no_tape_are_refused,
    records_without_room_are_refused,
    positions_past_the_count_are_refused,
    a_cut_through_a_container_is_refused,
    words_that_are_no_record_are_refused,
}

fn an_area_over_65_535_octets_is_refused<L: Layout>() {
    let area = vec![0; LONGEST_AREA + 1];
    let mut words = vec![0; Tape::<L>::words_in_layout(most_records(area.len()))];
    Tape::<L>::cleared_in_layout(&mut words).unwrap();
    assert_area_refused::<L>(&words, Refusal::AreaTooLong, 0, &area);
    let mut tape = Tape::<L>::in_layout(&mut words);
    let push = tape.push(Registry::Unregistered, 0, &area[1..]);
    assert_eq!(push.map(|laid| laid.covered), Ok(65_534));
}

fn an_area_past_32_bits_is_refused<L: Layout>() {
    for base in [4_294_967_295, 4_294_967_296, u64::MAX - 1, u64::MAX] {
        assert_area_refused::<L>(&metric::<L>(), Refusal::BaseTooHigh, base, &[0]);
    }
}

fn words_that_are_no_tape_are_refused<L: Layout>() {
    let mut words = metric::<L>();
    words[3] = 1;
    for words in [&words[..], &words[..3], &[], &[u64::MAX; 40]] {
        assert_area_refused::<L>(words, Refusal::NoTape, 100, &[]);
        assert_refused::<L, _>(words, Refusal::NoTape, |tape| tape.cut_back(Position(0)));
        let read = |tape: &mut Tape<'_, L>| tape.read(Position(0)).map(|record| record.number);
        assert_refused::<L, _>(words, Refusal::NoTape, read);
        assert!(!Tape::<L>::in_layout(&mut words.to_vec()).nests());
    }
    assert_refused::<L, _>(&words[..3], Refusal::NoTape, |tape| tape.clear());
    let cleared = Tape::<L>::cleared_in_layout(&mut [0; 3]).err();
    assert_eq!(cleared, Some(Refusal::NoTape));
}

fn records_without_room_are_refused<L: Layout>() {
    let needed = |needed| Refusal::NoRoom { needed };
    for registry in Registry::ALL {
        let area = [0xFF, 0x01, 0x00, 0xFF];
        assert_refused::<L, _>(&metric::<L>(), needed(5), |tape| {
            tape.walk(*registry, 0, &area)
        });
        assert_refused::<L, _>(&metric::<L>(), needed(6), |tape| {
            tape.push(*registry, 0, &area)
        });
    }
}

fn positions_past_the_count_are_refused<L: Layout>() {
    for past in [1, 2, u64::MAX - 5] {
        let mark = Position(5 + past);
        assert_refused::<L, _>(&metric::<L>(), Refusal::PastCount, |tape| {
            tape.cut_back(mark)
        });
    }
    for at in [5, 6, u64::MAX] {
        let read = |tape: &mut Tape<'_, L>| tape.read(Position(at)).map(|record| record.number);
        assert_refused::<L, _>(&metric::<L>(), Refusal::PastCount, read);
    }
}

fn a_cut_through_a_container_is_refused<L: Layout>() {
    for mark in 1..5 {
        let cut = |tape: &mut Tape<'_, L>| tape.cut_back(Position(mark));
        assert_refused::<L, _>(&metric::<L>(), Refusal::CutsContainer, cut);
    }
}

fn words_that_are_no_record_are_refused<L: Layout>() {
    for (word, wrong) in [(0, 57), (0, 9 << 8), (0, 6 << 16), (1, 106), (2, 101)] {
        let mut record = [15 + 256 * 2, 102, 105, 10, 0, 0];
        record[word] = wrong;
        let mut words = metric::<L>();
        put::<L>(&mut words, 4, record);
        let read = |tape: &mut Tape<'_, L>| tape.read(Position(4)).map(|record| record.number);
        assert_refused::<L, _>(&words, Refusal::NoRecord, read);
    }
}

#[test]
fn a_name_without_room_is_refused() {
    let mut out = [0xC3; LONGEST_NAME];
    let refused = name(Registry::Neighbor, 18, &mut out[..16]);
    assert_eq!(refused, Err(Refusal::NameTooLong));
    assert_eq!(out, [0xC3; LONGEST_NAME]);
    let given = name(Registry::Neighbor, 18, &mut out);
    assert_eq!(given, Ok(Some("TE Default metric")));
    assert_eq!(out[17..], [0xC3; LONGEST_NAME - 17]);
}

#[test]
fn every_name_fits_the_longest() {
    let mut longest = 0;
    for registry in Registry::ALL {
        for t in 0..=u8::MAX {
            let name = name(*registry, t, &mut [0; LONGEST_NAME]).map(|name| name.map(str::len));
            longest = longest.max(name.unwrap().unwrap_or(0));
        }
    }
    assert_eq!(longest, LONGEST_NAME);
}

#[test]
fn refusals_have_the_numbers_of_document_01() {
    let refusals = [
        Refusal::NoRegistry,
        Refusal::AreaTooLong,
        Refusal::BaseTooHigh,
        Refusal::NoTape,
        Refusal::NoRoom { needed: 5 },
        Refusal::PastCount,
        Refusal::CutsContainer,
        Refusal::NoRecord,
        Refusal::NameTooLong,
    ];
    assert!(refusals.map(Refusal::number).into_iter().eq(1..=9));
    let texts: std::collections::HashSet<_> = refusals.map(|one| one.to_string()).into();
    assert_eq!(texts.len(), 9);
    assert!(texts.contains("no room for 5 records"));
}
