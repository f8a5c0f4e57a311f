//! Both layouts side by side: from equal records, the same calls give equal records.

use compare::agree::{Call, Tally};
use compare::layout::Layout;
use compare::model::used_records;
use compare::native::{self, Area, Outcome, Record};
use compare::random::Random;
use compare::shown::{LAST_PLACE, MOST_OCTETS, Shown, bound, outcome};
use compare::{areas, cases, tapes};

/// The number of pairs of tapes.
const PAIRS: usize = 6_000;

/// The number of calls that may write on each pair.
const STEPS: usize = 20;

/// The most records that both tapes of a pair have room for.
const MOST_ROOM: u64 = 80;

/// Octets that are too many for an area.
static TOO_MANY: [u8; MOST_OCTETS + 1] = [0; MOST_OCTETS + 1];

/// The number of areas that end at the last place.
const LAST_AREAS: usize = 2_000;

/// Numbers of records that stand on a tape before a call, some thousands.
const THOUSANDS: [u64; 4] = [4_095, 4_096, 5_000, 8_192];

/// The number of areas behind each of them.
const LATE_AREAS: usize = 20;

/// The octets of document 01's listing.
const METRIC: [u8; 5] = [0x12, 3, 0, 0, 10];

/// A tape of each layout, with equal records, what was called on them, and how often one alone
/// had room; the usual one first.
struct Pair {
    tallies: [Tally; 2],
    random: Random,
    tapes: [Vec<u64>; 2],
    lone_rooms: u64,
}

impl Pair {
    /// A pair without a word.
    fn new() -> Self {
        Self {
            tallies: Tally::in_each_layout(),
            random: Random::of_this_run(),
            tapes: [vec![], vec![]],
            lone_rooms: 0,
        }
    }

    /// Starts anew with equal records, and every other time with equal room.
    fn start(&mut self) {
        let random = &mut self.random;
        let records = cases::earlier(random, Layout::Slim);
        let room = random.below(MOST_ROOM) as usize;
        let more = room + random.below(6) as usize;
        let [usual, slim] = random.pick(&[[room, room], [room, room], [room, more], [more, room]]);
        self.tapes = [(Layout::Usual, usual), (Layout::Slim, slim)]
            .map(|(layout, room)| tapes::with_room(random, layout, &records, room));
    }

    /// A random call that may write.
    fn step(&mut self) {
        match self.random.below(16) {
            0 => self.change(Call::Clear, native::clear),
            1..=4 => self.cut_back(),
            5 => self.append(0, 100, &TOO_MANY),
            _ => {
                let (registry, base, octets) = cases::any_area(&mut self.random);
                self.append(registry, base, &octets);
            }
        }
    }

    /// Cuts back to a random mark, mostly up to one past the count.
    fn cut_back(&mut self) {
        let near = self.random.below(self.tapes[0][0] + 2);
        let any = self.random.word();
        let mark = self.random.pick(&[near, near, near, any]);
        self.change(Call::CutBack, |layout, tape| {
            native::cut_back(layout, tape, mark)
        });
    }

    /// Walks or pushes an area.
    fn append(&mut self, registry: u64, base: u64, octets: &[u8]) {
        let area = Area::new(registry, base, octets);
        if self.random.below(3) == 0 {
            self.change(Call::Walk, |layout, tape| native::walk(layout, area, tape));
        } else {
            self.change(Call::Push, |layout, tape| native::push(layout, area, tape));
        }
    }

    /// Makes a call on both tapes, and asserts that they give and leave the same. Where one alone
    /// has room, both are left as they were.
    fn change(&mut self, call: Call, run: impl Fn(Layout, &mut [u64]) -> Outcome) {
        let before = self.tapes.clone();
        let given = self.both(run);
        self.count(call, given.map(|given| given.answer));
        match given.map(|given| given.answer) {
            [0, 0] => assert_eq!(given[0], given[1], "{call:?}"),
            [0, 5] => self.assert_lone_room(before, given, [0, 1]),
            [5, 0] => self.assert_lone_room(before, given, [1, 0]),
            _ => {
                assert_eq!(given[0], given[1], "{call:?}");
                assert_eq!(self.tapes, before, "{call:?}");
            }
        }
        self.assert_equal_records();
    }

    /// Asserts that one tape had room and the other, which is as it was, had not; puts both back.
    fn assert_lone_room(&mut self, before: [Vec<u64>; 2], given: [Outcome; 2], places: [usize; 2]) {
        let [done, refused] = places;
        let needed = given[done].needed;
        assert_eq!(given[refused], outcome(5, 0, 0, needed));
        assert_eq!(self.tapes[refused], before[refused]);
        let free = |place: usize| {
            let tape = &before[place];
            Layout::ALL[place].room(tape.len()) as u64 - tape[0]
        };
        assert!(free(refused) < needed && needed <= free(done));
        self.tapes = before;
        self.lone_rooms += 1;
    }

    /// Asserts that the records are equal, as they stand and as a read gives them, and that the
    /// nest test says the same of them.
    fn assert_equal_records(&mut self) {
        let [usual, slim] = self.both(|layout, tape| {
            let records = used_records(layout, tape).expect("a tape");
            Vec::from_iter(records)
        });
        assert_eq!(usual, slim);
        for at in 0..=usual.len() as u64 {
            let [usual, slim] = self.both(|layout, tape| native::read(layout, tape, at));
            assert_eq!(usual, slim, "read at {at}");
            self.count(Call::Read, [usual.1.answer, slim.1.answer]);
        }
        let [usual, slim] = self.both(|layout, tape| native::nest_test(layout, tape));
        assert_eq!(usual, slim, "nest test");
        self.count(Call::NestTest, [usual.into(), slim.into()]);
    }

    /// What a call gives on each tape.
    fn both<Given>(&mut self, call: impl Fn(Layout, &mut [u64]) -> Given) -> [Given; 2] {
        let [usual, slim] = &mut self.tapes;
        [call(Layout::Usual, usual), call(Layout::Slim, slim)]
    }

    /// Counts a call on each tape.
    fn count(&mut self, call: Call, answers: [u64; 2]) {
        for (tally, answer) in self.tallies.iter_mut().zip(answers) {
            tally.add(call, answer);
        }
    }
}

#[test]
fn the_same_calls_from_equal_records_give_equal_records() {
    let mut pair = Pair::new();
    for _ in 0..PAIRS {
        pair.start();
        (0..STEPS).for_each(|_| pair.step());
    }
    let lone_rooms = pair.lone_rooms;
    assert!(lone_rooms > 1_000, "{lone_rooms} times one alone had room");
    for tally in pair.tallies {
        println!("{tally:?}");
        for call in [Call::Walk, Call::Push] {
            tally.assert_answers(call, &[0, 5], 7_000);
            tally.assert_answers(call, &[1, 2, 3], 200);
        }
        tally.assert_answers(Call::Clear, &[0], 6_000);
        tally.assert_answers(Call::CutBack, &[0, 6, 7], 6_000);
        tally.assert_answers(Call::Read, &[0, 6, 8], 50_000);
        tally.assert_answers(Call::NestTest, &[0, 1], 9_000);
    }
}

/// The records that a push onto an empty tape leaves, as a read gives them.
fn records(layout: Layout, area: Area<'_>) -> Vec<Record> {
    let room = bound(area.octets.len());
    let mut tape = tapes::with_room(&mut Random::new(1), layout, &[], room);
    let given = native::push(layout, area, &mut tape);
    assert_eq!(given.answer, 0, "{layout}, {area}");
    let reads = (0..given.written).map(|at| native::read(layout, &tape, at));
    let records = reads.inspect(|read| assert_eq!(read.1.answer, 0, "{layout}, {area}"));
    records.map(|read| read.0).collect()
}

/// Asserts that the records of an area that ends at the last place are equal in both layouts, and
/// that one of them ends there.
fn assert_last_place(area: Area<'_>) {
    let [usual, slim] = Layout::ALL.map(|layout| records(layout, area));
    assert_eq!(usual, slim, "{area}");
    let end = usual.iter().map(|record| record[2]).max();
    let wanted = (!area.octets.is_empty()).then_some(4_294_967_295);
    assert_eq!(end, wanted, "{area}");
}

/// Compares walks and pushes of a random area that ends at the last place, just before it, and
/// just past it.
fn compare_last_places(tallies: &mut [Tally; 2], random: &mut Random) {
    let registry = random.below(6);
    let octets = areas::area(random, registry as u8);
    let greatest = LAST_PLACE - octets.len() as u64;
    assert_last_place(Area::new(registry, greatest, &octets));
    for base in [greatest - 2, greatest - 1, greatest, greatest + 1] {
        let shown = Shown::of(Area::new(registry, base, &octets));
        for tally in &mut *tallies {
            let earlier = cases::earlier(random, tally.layout());
            tally.every_room(random, &shown, &earlier);
        }
    }
}

#[test]
fn places_go_up_to_the_last_one() {
    let mut random = Random::of_this_run();
    let mut tallies = Tally::in_each_layout();
    for _ in 0..LAST_AREAS {
        compare_last_places(&mut tallies, &mut random);
    }
    for tally in tallies {
        tally.assert_calls(26 * LAST_AREAS as u64);
        for call in [Call::Walk, Call::Push] {
            tally.assert_answers(call, &[0, 3, 5], LAST_AREAS as u64);
        }
    }
}

/// Compares walks and pushes of a random area behind so many records.
fn compare_late(tallies: &mut [Tally; 2], random: &mut Random, earlier: &[Record]) {
    let (registry, base, octets) = cases::any_area(random);
    let shown = Shown::of(Area::new(registry, base, &octets));
    for tally in tallies {
        tally.every_room(random, &shown, earlier);
    }
}

#[test]
fn positions_go_up_to_the_end_of_the_room() {
    let mut random = Random::of_this_run();
    let mut tallies = Tally::in_each_layout();
    for count in THOUSANDS {
        let earlier = tapes::leaves(count);
        (0..LATE_AREAS).for_each(|_| compare_late(&mut tallies, &mut random, &earlier));
    }
    for tally in tallies {
        tally.assert_calls(400);
        for call in [Call::Walk, Call::Push] {
            tally.assert_answers(call, &[0, 5], 70);
        }
    }
}

#[test]
fn the_listing_has_the_words_of_document_02() {
    let mut tape = [9; 24];
    native::clear(Layout::Slim, &mut tape);
    let given = native::push(Layout::Slim, Area::new(0, 100, &METRIC), &mut tape);
    assert_eq!(given, outcome(0, 5, 5, 5));
    assert_eq!(tape[..4], [5, 4, 4, 0]);
    assert_eq!(tape[4..8], [1796, 450_971_566_180, 0, 21_474_836_481]);
    assert_eq!(tape[8..12], [2095, 450_971_566_180, 0, 21_474_836_482]);
    assert_eq!(tape[12..16], [0, 433_791_696_996, 18, 0]);
    assert_eq!(tape[16..20], [1, 438_086_664_293, 3, 0]);
    assert_eq!(tape[20..], [527, 450_971_566_182, 10, 0]);
}
