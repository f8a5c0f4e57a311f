//! Slim tapes of the greatest room, and positions up to the greatest: the proved library against
//! the oracle and document 02, in memory that is mapped and hardly touched.

use std::io::{Write, stderr};
use std::ops::Range;

use compare::cases;
use compare::layout::{HEADER, Layout};
use compare::mapped::Mapped;
use compare::model::bare;
use compare::native::{self, Area, Outcome, Record};
use compare::random::Random;
use compare::shown::{Shown, outcome};
use compare::tapes;

/// The greatest number of records of a slim tape.
const MOST_RECORDS: u64 = 4_294_967_295;

/// The number of random areas.
const AREAS: usize = 300;

/// The octets of document 01's listing.
const METRIC: [u8; 5] = [0x12, 3, 0, 0, 10];

/// The words at the end of a tape that are looked at.
const LAST_WORDS: usize = 16_384;

/// Words elsewhere that are looked at: those at the start, and those where a place would lie that
/// lost its upper bits.
const OTHER_WORDS: [Range<usize>; 4] = [
    1..1_024,
    (1 << 29) - 512..(1 << 29) + 512,
    (1 << 31) - 512..(1 << 31) + 512,
    (1 << 32) - 512..(1 << 32) + 512,
];

/// A slim tape in mapped memory.
struct FarTape {
    tape: Mapped,
}

impl FarTape {
    /// A tape of words for so many records; nothing, and a message, where the system does not map
    /// it.
    fn of_records(records: u64) -> Option<Self> {
        let words = HEADER as u64 + 4 * records;
        let tape = usize::try_from(words).ok().and_then(Mapped::words);
        if tape.is_none() {
            // Written past the test's own output, which is seen only where it fails.
            let message = format!("far.rs: NOT CHECKED, as this system maps no {words} words\n");
            stderr().write_all(message.as_bytes()).expect("a message");
        }
        tape.map(|tape| Self { tape })
    }

    /// Starts anew with so many used records; the last words are other ones than any record's.
    fn start(&mut self, used: u64) {
        self.tape[..HEADER].copy_from_slice(&[used, 4, 4, 0]);
        let start = self.last_start();
        for (number, word) in (1..).zip(&mut self.tape[start..]) {
            *word = u64::MAX - number;
        }
    }

    /// The place of the first of the last words.
    fn last_start(&self) -> usize {
        self.tape.len() - LAST_WORDS
    }

    /// The words looked at, those at the end and the others.
    fn seen(&self) -> (Vec<u64>, Vec<u64>) {
        let others = OTHER_WORDS.map(|range| &self.tape[range]);
        (self.tape[self.last_start()..].to_vec(), others.concat())
    }

    /// Asserts what a call gives, that it writes these records and their count, and nothing else
    /// of what is looked at.
    fn assert_call(
        &mut self,
        call: impl Fn(Layout, &mut [u64]) -> Outcome,
        expected: Outcome,
        records: impl Iterator<Item = Record>,
    ) {
        let used = self.tape[0];
        let (mut last, others) = self.seen();
        if expected.written > 0 {
            let place = HEADER + 4 * used as usize - self.last_start();
            let records = records.take(expected.written as usize);
            Layout::Slim.write_all(records, &mut last[place..]);
        }
        assert_eq!(call(Layout::Slim, &mut self.tape), expected);
        assert_eq!(self.tape[0], used + expected.written);
        assert!(self.seen() == (last, others), "words behind {used} records");
    }

    /// Asserts what a walk and a push of an area give and leave behind so many records, and what
    /// reads give of what is pushed.
    fn assert_both(&mut self, used: u64, shown: &Shown<'_>, given: [Outcome; 2]) {
        let area = shown.area;
        let [walked, pushed] = given;
        let walk = |layout, tape: &mut [u64]| native::walk(layout, area, tape);
        let push = |layout, tape: &mut [u64]| native::push(layout, area, tape);
        self.start(used);
        self.assert_call(walk, walked, shown.records_behind(used));
        self.start(used);
        self.assert_call(push, pushed, shown.records_behind(used));
        let records = shown.records_behind(used).take(pushed.written as usize);
        for (at, record) in (used..).zip(records) {
            self.assert_read(at, record, 0);
        }
    }

    /// Asserts what a read gives.
    fn assert_read(&self, at: u64, record: Record, answer: u64) {
        let given = native::read(Layout::Slim, &self.tape, at);
        assert_eq!(given, (record, bare(answer)), "read at {at}");
    }
}

/// A tape of exactly the greatest room, and one with words for one record more; nothing where the
/// system does not map them.
fn far_tapes() -> impl Iterator<Item = FarTape> {
    let records = [MOST_RECORDS, MOST_RECORDS + 1];
    records.into_iter().filter_map(FarTape::of_records)
}

/// The records of document 01's listing at this base and with the greatest positions.
fn last_listing(base: u64) -> [Record; 5] {
    let end = base + 5;
    [
        [1796, base, end, 0, 4_294_967_291, 4_294_967_295],
        [2095, base, end, 0, 4_294_967_292, 4_294_967_295],
        [0, base, base + 1, 18, 0, 0],
        [1, base + 1, base + 2, 3, 0, 0],
        [527, base + 2, end, 10, 0, 0],
    ]
}

/// Asserts that the listing takes the last 5 records at this base, and that no record more fits.
fn assert_last_listing(far: &mut FarTape, base: u64) {
    let shown = Shown::of(Area::new(0, base, &METRIC));
    far.assert_both(MOST_RECORDS - 5, &shown, [outcome(0, 5, 5, 5); 2]);
    for (at, record) in (4_294_967_290..).zip(last_listing(base)) {
        far.assert_read(at, record, 0);
    }
    far.assert_read(4_294_967_295, [0; 6], 6);
    far.assert_both(MOST_RECORDS, &shown, [outcome(5, 0, 0, 5); 2]);
    far.assert_both(MOST_RECORDS - 4, &shown, [outcome(5, 0, 0, 5); 2]);
}

#[test]
fn the_last_records_of_the_greatest_room_are_written_and_read() {
    for mut far in far_tapes() {
        assert_last_listing(&mut far, 100);
        assert_last_listing(&mut far, 4_294_967_290);
    }
}

#[test]
fn one_octet_needs_one_record_in_a_walk_and_two_in_a_push() {
    for mut far in far_tapes() {
        let shown = Shown::of(Area::new(0, 100, &[0x12]));
        let full = [outcome(5, 0, 0, 1), outcome(5, 0, 0, 2)];
        far.assert_both(MOST_RECORDS, &shown, full);
        let one_left = [outcome(0, 0, 1, 1), outcome(5, 0, 0, 2)];
        far.assert_both(MOST_RECORDS - 1, &shown, one_left);
        let two_left = [outcome(0, 0, 1, 1), outcome(0, 0, 2, 2)];
        far.assert_both(MOST_RECORDS - 2, &shown, two_left);
        far.assert_both(
            MOST_RECORDS,
            &Shown::of(Area::new(0, 100, &[])),
            [bare(0); 2],
        );
    }
}

#[test]
fn the_count_is_at_most_the_greatest() {
    for mut far in far_tapes() {
        let shown = Shown::of(Area::new(0, 100, &METRIC));
        let last = [2, 8, 9, 7, 0, 0];
        let place = HEADER + 4 * (MOST_RECORDS as usize - 1);
        far.start(MOST_RECORDS);
        Layout::Slim.write(last, &mut far.tape[place..place + 4]);
        far.assert_read(MOST_RECORDS - 1, last, 0);
        far.assert_read(MOST_RECORDS, [0; 6], 6);
        for used in [MOST_RECORDS + 1, MOST_RECORDS + 2, 1 << 62, u64::MAX] {
            far.tape[0] = used;
            far.assert_read(MOST_RECORDS - 1, [0; 6], 4);
            let walk = |layout, tape: &mut [u64]| native::walk(layout, shown.area, tape);
            far.assert_call(walk, bare(4), [].into_iter());
            let push = |layout, tape: &mut [u64]| native::push(layout, shown.area, tape);
            far.assert_call(push, bare(4), [].into_iter());
        }
    }
}

#[test]
fn a_clear_writes_the_header_only() {
    for mut far in far_tapes() {
        far.start(u64::MAX);
        let before = far.seen();
        assert_eq!(native::clear(Layout::Slim, &mut far.tape), bare(0));
        assert_eq!(far.tape[..HEADER], [0, 4, 4, 0]);
        assert!(far.seen() == before, "words that are no header's");
        far.assert_read(0, [0; 6], 6);
    }
}

/// Asserts what both calls give and leave of a random area, where a push just has room and where
/// it is one record short.
fn assert_any_area(far: &mut FarTape, random: &mut Random) {
    let (registry, base, octets) = cases::any_area(random);
    let shown = Shown::of(Area::new(registry, base, &octets));
    let needed = shown.needed_by_push();
    for free in [needed, needed.saturating_sub(1)] {
        let near = tapes::with_room(random, Layout::Slim, &[], free);
        let [walk, push] = [
            shown.walk(Layout::Slim, &near),
            shown.push(Layout::Slim, &near),
        ];
        let used = MOST_RECORDS - free as u64;
        far.assert_both(used, &shown, [walk.outcome, push.outcome]);
    }
}

#[test]
fn random_areas_at_the_end_of_the_greatest_room_are_those_of_the_rust() {
    let mut random = Random::of_this_run();
    for mut far in far_tapes() {
        (0..AREAS).for_each(|_| assert_any_area(&mut far, &mut random));
    }
}
