//! The octets of crates/replay/stdin: pushes, each with what the module gives.

use std::collections::HashSet;

use crate::LAST_REGISTRY;
use crate::areas::{Area, area, areas, entry, flipped, mixed};
use crate::cases::least_length;
use crate::records::{Record, push};

/// The most octets of an area in the list.
const MOST_OCTETS: usize = 512;

/// The greatest length of a value.
const MOST_IN_VALUE: usize = 255;

/// How much longer than the least a value is.
const MORE: [usize; 4] = [0, 1, 3, 40];

/// The octets of the small areas.
const SMALL_OCTETS: [u8; 6] = [0x00, 0x01, 0x04, 0x13, 0x18, 0xFF];

/// The most octets of a small area.
const MOST_IN_SMALL: usize = 3;

/// Of so many octets of an area one is damaged.
const DAMAGE_STRIDE: usize = 3;

/// Entries that are repeated to great areas: registry, entry, how often.
pub(crate) const GREAT_AREAS: [(u8, &[u8], usize); 8] = [
    (0, &[0x12, 0x03, 0x12, 0x34, 0x56], 102),
    (1, &[0x04, 0x01, 0xA0], 140),
    (2, &[0x13, 0x00], 170),
    (2, &[0x19, 0x03, 0x80, 0x00, 0x07], 100),
    (3, &[0x01, 0x04, 0xFF, 0x00, 0x80, 0x01], 85),
    (4, &[0x01, 0x04, 0x28, 0x18, 0x10, 0x00], 85),
    (5, &[0x07, 0x00], 249),
    (5, &[0xFF], MOST_OCTETS),
];

/// The area that the false cases are about: flags, and one range with its SID.
const LIED_ABOUT: (u8, [u8; 11]) = (
    2,
    [
        0x02, 0x09, 0xC0, 0x00, 0x03, 0xE8, 0x01, 0x03, 0x00, 0x3E, 0x80,
    ],
);

/// The octets of a case before its area.
const HEAD: usize = 11;

/// The octets of a record in a case.
const RECORD: usize = 19;

/// The list: what the module gives, one case after the other, and then the false cases.
pub fn replay() -> Vec<u8> {
    [answers(), lies()].concat()
}

/// Cases that say something else than the module gives: each octet of covered and of every record
/// changed by one bit, one record left out, and one too many.
pub fn lies() -> Vec<u8> {
    let (registry, octets) = LIED_ABOUT;
    let area = area(registry, octets.to_vec());
    let truth = case(1, &area);
    let records = HEAD + area.octets.len();
    let places = [7, 8].into_iter().chain(records..truth.len());
    let changed = places.map(|place| with_a_bit_changed(&truth, place));
    let fewer = with_count(&truth, truth.len() - RECORD, records);
    let more = with_count(&truth, truth.len() + RECORD, records);
    changed.chain([fewer, more]).collect::<Vec<_>>().concat()
}

/// A case with the lowest bit of one octet the other way.
fn with_a_bit_changed(case: &[u8], place: usize) -> Vec<u8> {
    let mut changed = case.to_vec();
    changed[place] ^= 1;
    changed
}

/// A case cut off, or filled up with zeros, to this length, and the count of records that it then has.
fn with_count(case: &[u8], length: usize, records: usize) -> Vec<u8> {
    let mut changed = case.to_vec();
    changed.resize(length, 0);
    let count = (length - records) / RECORD;
    changed[9..HEAD].copy_from_slice(&two_octets(count as u64));
    changed
}

/// What the module gives, one case after the other.
fn answers() -> Vec<u8> {
    let mut met = HashSet::new();
    let areas = all_areas().into_iter();
    let areas = areas.filter(|area| area.octets.len() <= MOST_OCTETS);
    let once = areas.filter(|area| met.insert((area.registry, area.octets.clone())));
    let cases = once.enumerate();
    cases.flat_map(|(turn, area)| case(turn, &area)).collect()
}

/// All areas, in the order of the list.
fn all_areas() -> Vec<Area> {
    let groups = [
        areas(),
        row_areas(),
        type_areas(),
        small_areas(),
        damaged_areas(),
        great_areas(),
    ];
    groups.concat()
}

/// A case: registry (1 octet), base (4), length of the area (2), covered (2), number of records
/// (2), area, records.
fn case(turn: usize, area: &Area) -> Vec<u8> {
    let base = base(turn, area.octets.len());
    let push = push(area.registry, base, &area.octets);
    let counts = [
        area.octets.len() as u64,
        push.covered,
        push.records.len() as u64,
    ];
    let mut case = vec![area.registry];
    case.extend(base.to_be_bytes());
    case.extend(counts.into_iter().flat_map(two_octets));
    case.extend(&area.octets);
    case.extend(push.records.iter().flat_map(|one| record(one, base)));
    case
}

/// The base of a case: small, great, or such that the area ends at the greatest place.
pub(crate) fn base(turn: usize, length: usize) -> u32 {
    let greatest = u32::MAX - length as u32;
    let bases = [
        0,
        100,
        greatest,
        0x1234_5678,
        65_535,
        greatest - 1,
        0x8000_0000,
    ];
    bases[turn % bases.len()]
}

/// A record: label, shape and registry (1 octet each), first octet and one past the last from the
/// base on (2 each), number (8), first child and one past the last descendant (2 each).
fn record(record: &Record, base: u32) -> Vec<u8> {
    let base = u64::from(base);
    let range = [record.first - base, record.past_last - base];
    let children = [record.first_child, record.past_children];
    let mut octets = vec![record.label, record.shape, record.registry];
    octets.extend(range.into_iter().flat_map(two_octets));
    octets.extend(record.number.to_be_bytes());
    octets.extend(children.into_iter().flat_map(two_octets));
    octets
}

/// A number in two octets.
fn two_octets(number: u64) -> [u8; 2] {
    let number = u16::try_from(number).expect("counts of the list are under 65,536");
    number.to_be_bytes()
}

/// Registries and types, all of them.
fn all_types() -> impl Iterator<Item = (u8, u8)> {
    (0..=LAST_REGISTRY).flat_map(|registry| (0..=u8::MAX).map(move |t| (registry, t)))
}

/// The types that are read: registry, type, least value length.
pub(crate) fn rows() -> impl Iterator<Item = (u8, u8, usize)> {
    all_types().filter_map(|(registry, t)| {
        let least = usize::from(least_length(registry, t)?);
        Some((registry, t, least))
    })
}

/// Value lengths of a type: one too short, the least, and greater ones.
pub(crate) fn lengths_around(least: usize) -> impl Iterator<Item = usize> {
    let less = least.checked_sub(1);
    let longer = MORE.map(|more| least + more);
    less.into_iter().chain(longer).chain([MOST_IN_VALUE])
}

/// Values of every type that is read, around its least length.
fn row_areas() -> Vec<Area> {
    let areas = rows().flat_map(|(registry, t, least)| around_least(registry, t, least));
    areas.collect()
}

/// Values of one type around the least length, each alone and in a row with others.
fn around_least(registry: u8, t: u8, least: usize) -> Vec<Area> {
    let values = lengths_around(least).flat_map(fillings);
    let entries = values.map(|value| entry(t, &value));
    entries
        .flat_map(|entry| in_company(registry, entry))
        .collect()
}

/// Values of this length: of different octets, of these with every bit the other way, and of the
/// greatest octet.
pub(crate) fn fillings(length: usize) -> [Vec<u8>; 3] {
    [mixed(length), flipped(length), vec![0xFF; length]]
}

/// An entry alone, and between an entry that is not read and a remainder, if it is short.
fn in_company(registry: u8, alone: Vec<u8>) -> Vec<Area> {
    let between = [&[0x00, 0x01, 0x5A], &alone[..], &[0x12]].concat();
    let is_short = alone.len() < 48;
    let company = is_short.then(|| area(registry, between));
    [area(registry, alone)].into_iter().chain(company).collect()
}

/// A value of four octets of every type.
fn type_areas() -> Vec<Area> {
    let value = [0x81, 0x42, 0x24, 0x18];
    let areas = all_types().map(|(registry, t)| area(registry, entry(t, &value)));
    areas.collect()
}

/// Every area of few octets.
fn small_areas() -> Vec<Area> {
    let mut small = vec![vec![]];
    let mut longest = small.clone();
    for _ in 0..MOST_IN_SMALL {
        let longer = |start: &Vec<u8>| SMALL_OCTETS.map(|octet| [&start[..], &[octet]].concat());
        longest = longest.iter().flat_map(longer).collect();
        small.extend_from_slice(&longest);
    }
    let registries = 0..=LAST_REGISTRY;
    let areas = registries.flat_map(|registry| {
        let small = small.iter().cloned();
        small.map(move |octets| area(registry, octets))
    });
    areas.collect()
}

/// Copies of the areas with one octet changed or taken out, or cut off.
pub(crate) fn damaged_areas() -> Vec<Area> {
    let areas = areas().into_iter().enumerate();
    let copies = areas.flat_map(|(turn, area)| {
        let places = (turn % DAMAGE_STRIDE..area.octets.len()).step_by(DAMAGE_STRIDE);
        let copies = places.map(move |place| damaged(&area, place));
        copies.collect::<Vec<_>>()
    });
    copies.collect()
}

/// A copy of an area with a damage at this place, each place another one.
fn damaged(whole: &Area, place: usize) -> Area {
    let mut octets = whole.octets.clone();
    match place / DAMAGE_STRIDE % 5 {
        0 => octets[place] = octets[place].wrapping_add(1),
        1 => octets.truncate(place),
        2 => octets[place] = octets[place].wrapping_sub(1),
        3 => drop(octets.remove(place)),
        _ => octets[place] = !octets[place],
    }
    area(whole.registry, octets)
}

/// Areas with many records.
pub(crate) fn great_areas() -> Vec<Area> {
    let areas = GREAT_AREAS.map(|(registry, entry, count)| area(registry, entry.repeat(count)));
    areas.into()
}
