//! Random areas: entries of every type that is read, areas inside areas, and damage.

use std::sync::LazyLock;

use oracle::LAST_REGISTRY;

use crate::random::Random;
use crate::shown::MOST_OCTETS;

/// The registry of the areas in SRv6 tails.
const SRV6_SID: u8 = 4;

/// The registry of the areas in SRv6 capabilities.
const UNREGISTERED: u8 = 5;

/// The most octets of a value.
const MOST_IN_VALUE: usize = 255;

/// Octets at which a reading may change: flags, lengths, types.
const BOUNDARIES: [u8; 12] = [0, 1, 2, 3, 4, 5, 0x0F, 0x10, 0x7F, 0x80, 0xF0, 0xFF];

/// A type that a registry reads.
#[derive(Clone, Copy, Debug, PartialEq, Eq)]
pub struct Row {
    /// The registry.
    pub registry: u8,
    /// The type.
    pub t: u8,
    /// The least length of a value that is read.
    pub least: usize,
}

impl Row {
    /// The least length, one octet less, one and three more.
    pub fn lengths(&self) -> impl Iterator<Item = usize> {
        let less = self.least.checked_sub(1);
        less.into_iter()
            .chain([0, 1, 3].map(|more| self.least + more))
    }

    /// What a value ends with.
    fn ending(&self) -> Ending {
        match (self.registry, self.t) {
            (0, 43 | 44) | (1, 5) => Ending::Tail,
            (2, 2 | 22) => Ending::Ranges,
            (2, 25) => Ending::Push,
            _ => Ending::Octets,
        }
    }
}

/// What a value of at least the least length may end with.
#[derive(Clone, Copy, Debug, PartialEq, Eq)]
enum Ending {
    /// Any octets.
    Octets,
    /// What follows the SID of an SRv6 tail.
    Tail,
    /// Ranges.
    Ranges,
    /// An area that is pushed.
    Push,
}

/// All types that the oracle reads.
pub fn rows() -> &'static [Row] {
    static ROWS: LazyLock<Vec<Row>> = LazyLock::new(|| {
        let registries = 0..=LAST_REGISTRY;
        registries
            .flat_map(|registry| (0..=u8::MAX).filter_map(move |t| row(registry, t)))
            .collect()
    });
    &ROWS
}

/// The rows whose values end with an SRv6 tail; the tail's SID ends with the least length.
pub fn tail_rows() -> impl Iterator<Item = Row> {
    let rows = rows().iter().copied();
    rows.filter(|row| row.ending() == Ending::Tail)
}

/// The row of a type, if the oracle reads it.
fn row(registry: u8, t: u8) -> Option<Row> {
    let least = usize::from(oracle::least_length(registry, t)?);
    Some(Row { registry, t, least })
}

/// An entry: type, length, and at most 255 octets of a value.
pub fn entry(t: u8, value: &[u8]) -> Vec<u8> {
    let length = value.len().min(MOST_IN_VALUE);
    [&[t, length as u8], &value[..length]].concat()
}

/// So many octets, these over and over.
pub fn over_and_over(octets: &[u8], length: usize) -> Vec<u8> {
    octets.iter().copied().cycle().take(length).collect()
}

/// An area of the greatest length, of these octets over and over.
pub fn longest(octets: &[u8]) -> Vec<u8> {
    over_and_over(octets, MOST_OCTETS)
}

/// An entry of the greatest length: the start of its value, then these octets over and over.
pub fn long_entry(t: u8, start: &[u8], octets: &[u8]) -> Vec<u8> {
    let rest = over_and_over(octets, MOST_IN_VALUE - start.len());
    entry(t, &[start, &rest].concat())
}

/// An entry of the greatest length with an SRv6 tail, whose inner area has these octets over and
/// over.
pub fn long_tail(row: Row, inner: &[u8]) -> Vec<u8> {
    let length = MOST_IN_VALUE - row.least - 1;
    let start = [vec![0xA5; row.least], vec![length as u8]].concat();
    long_entry(row.t, &start, inner)
}

/// Random octets, of any kind or all near a boundary or all alike.
pub fn octets(random: &mut Random, count: usize) -> Vec<u8> {
    match random.below(4) {
        0 => vec![octet(random); count],
        1 => (0..count).map(|_| octet(random)).collect(),
        _ => random.octets(count),
    }
}

/// A random area for a registry: entries in a row, and sometimes octets after them.
pub fn area(random: &mut Random, registry: u8) -> Vec<u8> {
    let mut area = Vec::new();
    for _ in 0..random.pick(&[0, 1, 1, 1, 2, 2, 3, 5]) {
        area.extend(any_entry(random, registry));
    }
    area.extend(few_octets(random));
    area
}

/// Changes a few octets, takes some out or puts some in.
pub fn damage(random: &mut Random, area: &mut Vec<u8>) {
    for _ in 0..random.pick(&[1, 1, 2, 3]) {
        damage_once(random, area);
    }
}

/// A random value of about the form that a type has.
pub fn value(random: &mut Random, row: Row) -> Vec<u8> {
    let ending = match row.ending() {
        Ending::Tail => tail(random),
        Ending::Ranges => ranges(random),
        Ending::Push => area(random, UNREGISTERED),
        Ending::Octets => {
            let length = length(random, row);
            return octets(random, length);
        }
    };
    [octets(random, row.least), ending].concat()
}

/// A random octet, half the time one at a boundary.
fn octet(random: &mut Random) -> u8 {
    let any = random.number() as u8;
    let boundary = random.pick(&BOUNDARIES);
    random.pick(&[any, boundary])
}

/// Mostly no octets, sometimes a few.
fn few_octets(random: &mut Random) -> Vec<u8> {
    let count = random.pick(&[0, 0, 0, 0, 1, 1, 2, 3, 6]);
    octets(random, count)
}

/// A random entry, mostly of a type that the registry reads.
fn any_entry(random: &mut Random, registry: u8) -> Vec<u8> {
    match any_row(random, registry) {
        Some(row) => entry(row.t, &value(random, row)),
        None => {
            let value = few_octets(random);
            entry(octet(random), &value)
        }
    }
}

/// A row of the registry, often one with an area or ranges inside; now and then none.
fn any_row(random: &mut Random, registry: u8) -> Option<Row> {
    let known = || rows().iter().filter(|row| row.registry == registry);
    let rows: Vec<&Row> = match random.below(8) {
        0 => return None,
        1 | 2 => known()
            .filter(|row| row.ending() != Ending::Octets)
            .collect(),
        _ => known().collect(),
    };
    let place = random.below(rows.len().max(1) as u64);
    rows.get(place as usize).copied().copied()
}

/// A length of a value, mostly near the least of its row.
fn length(random: &mut Random, row: Row) -> usize {
    let near: Vec<usize> = row.lengths().collect();
    match random.below(16) {
        0 => random.below(256) as usize,
        1..=3 => random.below(40) as usize,
        _ => random.pick(&near),
    }
}

/// What follows the SID of an SRv6 tail: sometimes nothing, else a length, which is often right,
/// an area, and octets after it.
fn tail(random: &mut Random) -> Vec<u8> {
    let inner = area(random, SRV6_SID);
    let rest = few_octets(random);
    let right = inner.len();
    let over = right + rest.len() + 1;
    let length = random.pick(&[
        right,
        right,
        right,
        right + 1,
        right.saturating_sub(1),
        over,
    ]);
    match random.below(8) {
        0 => rest,
        _ => [&[length as u8], &inner[..], &rest].concat(),
    }
}

/// Ranges in a row, each mostly right, and sometimes octets after them.
fn ranges(random: &mut Random) -> Vec<u8> {
    let mut ranges = Vec::new();
    for _ in 0..random.below(4) {
        let size = octets(random, 3);
        let sub_type = random.pick(&[1, 1, 1, 1, 1, 0, 2]);
        let length = random.pick(&[3, 3, 3, 4, 4, 4, 2, 5]);
        let sid = octets(random, length);
        ranges.extend([&size[..], &[sub_type, length as u8], &sid].concat());
    }
    ranges.extend(few_octets(random));
    ranges
}

/// Changes one octet, takes one out, puts one in, or cuts the area off.
fn damage_once(random: &mut Random, area: &mut Vec<u8>) {
    let place = random.below(area.len() as u64 + 1) as usize;
    let octet = octet(random);
    match (random.below(6), area.get_mut(place)) {
        (0, _) => area.truncate(place),
        (1, _) | (_, None) => area.insert(place, octet),
        (2, Some(_)) => drop(area.remove(place)),
        (3, Some(one)) => *one = octet,
        (4, Some(one)) => *one = one.wrapping_add(1),
        (_, Some(one)) => *one = one.wrapping_sub(1),
    }
}

#[cfg(test)]
mod tests {
    use super::*;

    /// The label of a value that is not read.
    const VALUE: u8 = 2;

    #[test]
    fn the_rows_are_those_of_document_01() {
        assert_eq!(rows().len(), 39);
        for (registry, t, least) in [(0, 44, 27), (1, 4, 1), (2, 19, 0), (4, 1, 4)] {
            assert!(rows().contains(&Row { registry, t, least }));
        }
    }

    #[test]
    fn lengths_lie_around_the_least() {
        let of = |least| Row {
            registry: 0,
            t: 3,
            least,
        };
        assert!(of(4).lengths().eq([3, 4, 5, 7]));
        assert!(of(0).lengths().eq([0, 1, 3]));
    }

    #[test]
    fn an_entry_has_at_most_255_octets_of_value() {
        assert_eq!(entry(7, &[8, 9]), [7, 2, 8, 9]);
        assert_eq!(entry(7, &[9; 300]), [vec![7, 255], vec![9; 255]].concat());
    }

    #[test]
    fn long_entries_have_257_octets() {
        let long = long_entry(7, &[1, 2], &[8, 9]);
        assert_eq!(
            (long.len(), &long[..7]),
            (257, &[7, 255, 1, 2, 8, 9, 8][..])
        );
        assert_eq!(longest(&[7, 0]).len(), 65_535);
    }

    #[test]
    fn an_area_inside_a_long_tail_reaches_its_end() {
        assert_eq!(tail_rows().count(), 3);
        for row in tail_rows() {
            let push = oracle::push(row.registry, 0, &long_tail(row, &[7]));
            let inner = push.records.iter().find(|one| one.registry == SRV6_SID);
            let last = push.records.last().expect("a push shows a record");
            assert!(inner.is_some());
            assert_eq!(last.past_last, 257);
        }
    }

    #[test]
    fn most_entries_of_random_areas_are_read() {
        let mut random = Random::new(1);
        for registry in 0..UNREGISTERED {
            let entries = (0..1_000).map(|_| any_entry(&mut random, registry));
            let pushes = entries.map(|entry| oracle::push(registry, 0, &entry).records);
            let is_read = |push: &Vec<oracle::Record>| push.iter().all(|one| one.label != VALUE);
            let read = pushes.filter(is_read).count();
            assert!((400..950).contains(&read), "{read} of registry {registry}");
        }
    }

    #[test]
    fn random_areas_have_areas_inside() {
        let mut random = Random::new(1);
        for (registry, inner) in [(0, SRV6_SID), (1, SRV6_SID), (2, UNREGISTERED)] {
            let areas = (0..1_000).map(|_| area(&mut random, registry));
            let pushes = areas.map(|area| oracle::push(registry, 0, &area).records);
            let has_inner =
                |push: &Vec<oracle::Record>| push.iter().any(|one| one.registry == inner);
            assert!(pushes.filter(has_inner).count() > 100, "{registry}");
        }
    }

    #[test]
    fn damage_changes_an_area() {
        let mut random = Random::new(1);
        let whole = vec![0x12, 3, 0, 0, 10];
        let changed = (0..1_000).filter(|_| {
            let mut damaged = whole.clone();
            damage(&mut random, &mut damaged);
            damaged != whole
        });
        assert!(changed.count() > 900);
    }
}
