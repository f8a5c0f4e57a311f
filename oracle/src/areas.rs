//! The areas of the cases: values around every least length of document 01's
//! table, and what its special rules speak of.

/// An area, and the registry that it is pushed in.
#[derive(Clone, Debug, PartialEq, Eq)]
pub struct Area {
    /// The registry, 0 to 5.
    pub registry: u8,
    /// The octets to be walked.
    pub octets: Vec<u8>,
}

/// Rows whose fields stand at fixed places: registry, type, least value length.
const FIXED_ROWS: [(u8, u8, usize); 23] = [
    (0, 3, 4),
    (0, 4, 8),
    (0, 6, 4),
    (0, 8, 4),
    (0, 9, 4),
    (0, 10, 4),
    (0, 12, 16),
    (0, 13, 16),
    (0, 18, 3),
    (0, 33, 4),
    (0, 34, 8),
    (0, 35, 4),
    (0, 36, 4),
    (0, 37, 4),
    (0, 38, 4),
    (0, 39, 4),
    (1, 4, 1),
    (1, 11, 4),
    (1, 12, 16),
    (2, 11, 4),
    (2, 12, 16),
    (2, 24, 1),
    (4, 1, 4),
];

/// Rows that end with a SID: registry, type, the place of the SID.
const SID_ROWS: [(u8, u8, usize); 5] = [(0, 31, 2), (0, 32, 8), (1, 3, 2), (3, 1, 0), (3, 3, 2)];

/// Rows that end with an array or a push: registry, type, value lengths.
const OPEN_ROWS: [(u8, u8, &[usize]); 16] = [
    (0, 11, &[31]),
    (0, 11, &[32]),
    (0, 11, &[33]),
    (0, 11, &[35]),
    (0, 11, &[36]),
    (1, 1, &[3, 4, 5, 7]),
    (1, 1, &[8, 15]),
    (1, 2, &[7, 8, 9, 11]),
    (1, 2, &[16]),
    (1, 2, &[23]),
    (2, 2, &[0, 1, 2, 4]),
    (2, 19, &[0, 1, 3, 9]),
    (2, 22, &[0, 1, 2, 4]),
    (2, 23, &[0, 1, 3]),
    (2, 23, &[2, 5, 10]),
    (2, 25, &[1, 2, 3]),
];

/// Rows with single bits of octet 0: registry, type, value length, octets 0.
const BIT_ROWS: [(u8, u8, usize, &[u8]); 4] = [
    (0, 33, 4, &[0x80, 0x7F]),
    (0, 34, 8, &[0x80, 0x7F]),
    (0, 36, 4, &[0x80, 0x7F]),
    (
        1,
        4,
        1,
        &[0x80, 0x40, 0x20, 0x1F, 0x7F, 0x3F, 0xBF, 0xDF, 0xFF],
    ),
];

/// Rows that end with an SRv6 tail: registry, type, the place of the tail.
const TAIL_ROWS: [(u8, u8, usize); 3] = [(0, 43, 5), (0, 44, 11), (1, 5, 3)];

/// What may follow the SID of an SRv6 tail.
const AFTER_SID: [&[u8]; 11] = [
    // no length octet
    &[],
    // an empty inner area
    &[0x00],
    // an empty inner area, octets after it
    &[0x00, 0x01, 0x00, 0xB6],
    // an overrun by one, nothing there
    &[0x01],
    // an overrun by one, a complete structure there
    &[0x07, 0x01, 0x04, 0xA8, 0x53, 0x1C, 0xE7],
    // one structure
    &[0x06, 0x01, 0x04, 0xA8, 0x53, 0x1C, 0xE7],
    // one structure, octets left inside, octets after it that would complete another
    &[
        0x08, 0x01, 0x04, 0x57, 0xAC, 0xE3, 0x18, 0x01, 0x04, 0xB6, 0x2D, 0x71, 0xC9,
    ],
    // an unknown type
    &[0x06, 0x02, 0x04, 0xA8, 0x53, 0x1C, 0xE7],
    // a structure too short
    &[0x05, 0x01, 0x03, 0xA8, 0x53, 0x1C],
    // two structures, the second too long
    &[
        0x0D, 0x01, 0x04, 0xA8, 0x53, 0x1C, 0xE7, 0x01, 0x05, 0x57, 0xAC, 0xE3, 0x18, 0xB6,
    ],
    // a lone octet, and one after the inner area that would complete an entry
    &[0x01, 0x01, 0x00],
];

/// The types whose value is flags and ranges.
const RANGE_TYPES: [u8; 2] = [2, 22];

/// Flags and ranges.
const RANGE_VALUES: [&[u8]; 10] = [
    // one of 3
    &[0xC5, 0x8A, 0x3B, 0x5C, 0x01, 0x03, 0xF9, 0x47, 0xD2],
    // one of 4
    &[0x3A, 0x75, 0xC4, 0xA3, 0x01, 0x04, 0xF6, 0xB8, 0x2D, 0x91],
    // one of 3, one of 4
    &[
        0xC5, 0x8A, 0x3B, 0x5C, 0x01, 0x03, 0xF9, 0x47, 0xD2, 0x75, 0xC4, 0xA3, 0x01, 0x04, 0xF6,
        0xB8, 0x2D, 0x91,
    ],
    // length 2
    &[0x3A, 0x75, 0xC4, 0xA3, 0x01, 0x02, 0xF6, 0xB8, 0x2D, 0x91],
    // length 5
    &[
        0xC5, 0x8A, 0x3B, 0x5C, 0x01, 0x05, 0xF9, 0x47, 0xD2, 0x6E, 0x10,
    ],
    // sub-type 2
    &[0x3A, 0x75, 0xC4, 0xA3, 0x02, 0x04, 0xF6, 0xB8, 0x2D, 0x91],
    // sub-type 0, then one of 3
    &[
        0xC5, 0x75, 0xC4, 0xA3, 0x00, 0x03, 0xF6, 0xB8, 0x2D, 0x8A, 0x3B, 0x5C, 0x01, 0x03, 0xF9,
        0x47, 0xD2,
    ],
    // one of 4, one of 3 cut off by one octet
    &[
        0x3A, 0x75, 0xC4, 0xA3, 0x01, 0x04, 0xF6, 0xB8, 0x2D, 0x91, 0x8A, 0x3B, 0x5C, 0x01, 0x03,
        0xF9, 0x47,
    ],
    // one of 3, one of 4 cut off by one octet
    &[
        0xC5, 0x8A, 0x3B, 0x5C, 0x01, 0x03, 0xF9, 0x47, 0xD2, 0x75, 0xC4, 0xA3, 0x01, 0x04, 0xF6,
        0xB8, 0x2D,
    ],
    // 4 octets
    &[0x3A, 0x75, 0xC4, 0xA3, 0x01],
];

/// Flags of type 25 and its inner area.
const CAPABILITIES: [&[u8]; 4] = [
    // one entry
    &[0x80, 0x41, 0x01, 0x04, 0xA8, 0x53, 0x1C, 0xE7],
    // an entry, a lone octet
    &[0x7F, 0xBE, 0x01, 0x04, 0x57, 0xAC, 0xE3, 0x18, 0x19],
    // two entries without octets
    &[0x41, 0x80, 0x00, 0x00, 0xFF, 0x00],
    // an entry, an entry that overruns by one
    &[0xBE, 0x7F, 0x07, 0x01, 0x5A, 0x19, 0x03, 0xC6, 0x2B],
];

/// Types that the registry does not read: registry, types.
const UNKNOWN_TYPES: [(u8, &[u8]); 6] = [
    (0, &[0, 7, 40]),
    (1, &[0, 6, 255]),
    (2, &[20, 21, 26]),
    (3, &[0, 2, 4]),
    (4, &[0, 2, 255]),
    (5, &[0, 1, 255]),
];

/// Types that another registry reads: registry, entries of type and value length.
const FOREIGN_TYPES: [(u8, &[(u8, usize)]); 10] = [
    (0, &[(1, 4), (2, 8), (5, 19)]),
    (0, &[(19, 1), (22, 1), (23, 2), (24, 1), (25, 2)]),
    (1, &[(6, 4), (18, 3), (31, 5), (37, 4)]),
    (1, &[(19, 1), (22, 1), (23, 2), (24, 1), (25, 2)]),
    (2, &[(1, 4), (3, 5), (4, 8), (5, 19)]),
    (2, &[(6, 4), (9, 4), (18, 3), (31, 5)]),
    (3, &[(2, 8), (4, 8), (5, 19), (11, 4)]),
    (3, &[(12, 16), (18, 3), (19, 1), (24, 1)]),
    (4, &[(2, 8), (3, 5), (4, 8), (24, 1)]),
    (5, &[(1, 5), (2, 8), (3, 5), (19, 1)]),
];

/// Entries in a row and a remainder: registry, entries of type and value length, octets after them.
type Sequence = (u8, &'static [(u8, usize)], &'static [u8]);

/// Entries of known types, some with a remainder.
const SEQUENCES: [Sequence; 15] = [
    (0, &[(18, 3), (6, 4)], &[]),
    (0, &[(31, 5), (18, 4), (9, 4)], &[]),
    (1, &[(4, 1), (3, 6), (1, 9)], &[]),
    (2, &[(19, 2), (24, 1), (23, 3)], &[]),
    (3, &[(1, 4), (3, 5)], &[]),
    (4, &[(1, 4), (1, 3)], &[]),
    (0, &[(18, 3)], &[0x12]),
    (1, &[(4, 1)], &[0x04, 0x01]),
    (2, &[(19, 1), (25, 2)], &[0x18]),
    (3, &[(1, 3), (3, 6)], &[0x01, 0x04, 0x5A, 0xA7, 0x3C]),
    (4, &[(1, 4)], &[0x01]),
    (5, &[(7, 2)], &[0x07, 0x02, 0x5A]),
    (0, &[], &[0x12, 0x06, 0x12, 0x03, 0x5A, 0xA7, 0x3C]),
    (0, &[(18, 255), (40, 255)], &[]),
    (0, &[(6, 4)], &[0x28, 0xFF, 0x5A]),
];

/// All areas, in the order of the cases.
pub fn areas() -> Vec<Area> {
    let groups = [
        empty_areas(),
        fixed_areas(),
        sid_areas(),
        open_areas(),
        bit_areas(),
        tail_areas(),
        range_areas(),
        capability_areas(),
        unknown_areas(),
        sequence_areas(),
        followed_areas(),
    ];
    groups.concat()
}

/// An empty area in each registry.
fn empty_areas() -> Vec<Area> {
    let registries = 0..=crate::LAST_REGISTRY;
    registries.map(|registry| area(registry, vec![])).collect()
}

/// Values of fixed rows: one octet too short, of the least length, one octet longer.
fn fixed_areas() -> Vec<Area> {
    let areas = FIXED_ROWS.iter().map(|&(registry, t, least)| {
        let lengths = [least - 1, least, least + 1];
        area(registry, lengthwise(t, &lengths))
    });
    areas.collect()
}

/// Values of SID rows, with 2 to 5 octets left for the SID.
fn sid_areas() -> Vec<Area> {
    let areas = SID_ROWS.iter().map(|&(registry, t, place)| {
        let values = (2..=5).map(|left| sid_value(place, left));
        let entries = values.flat_map(|value| entry(t, &value));
        area(registry, entries.collect())
    });
    areas.collect()
}

/// A value with so many octets left for the SID, whose top five bits are set.
fn sid_value(place: usize, left: usize) -> Vec<u8> {
    let mut value = octets(left, place + left);
    value[place] |= 0xF8;
    value
}

/// Values of open rows.
fn open_areas() -> Vec<Area> {
    let rows = OPEN_ROWS.iter();
    rows.map(|&(registry, t, lengths)| area(registry, lengthwise(t, lengths)))
        .collect()
}

/// Values in which single bits of octet 0 are set alone, or all others are.
fn bit_areas() -> Vec<Area> {
    let areas = BIT_ROWS.iter().map(|&(registry, t, length, firsts)| {
        let values = firsts.iter().map(|&first| bit_value(first, length));
        let entries = values.flat_map(|value| entry(t, &value));
        area(registry, entries.collect())
    });
    areas.collect()
}

/// A value with this first octet, whose other octets have the other top bit.
fn bit_value(first: u8, length: usize) -> Vec<u8> {
    let top = !first & 0x80;
    let octets = mixed(length).into_iter().map(|octet| (octet & 0x7F) | top);
    std::iter::once(first).chain(octets.skip(1)).collect()
}

/// SRv6 tails: one octet too short, then with each thing that may follow the SID.
fn tail_areas() -> Vec<Area> {
    let mut areas = Vec::new();
    for (registry, t, place) in TAIL_ROWS {
        areas.push(area(registry, entry(t, &mixed(place + 15))));
        for (turn, after) in AFTER_SID.iter().enumerate() {
            let value = [&octets(turn, place + 16), *after].concat();
            areas.push(area(registry, entry(t, &value)));
        }
    }
    areas
}

/// Flags and ranges, in both types that have them.
fn range_areas() -> Vec<Area> {
    let areas = RANGE_TYPES.iter().flat_map(|&t| {
        let values = RANGE_VALUES.iter();
        values.map(move |value| area(2, entry(t, value)))
    });
    areas.collect()
}

/// Flags of type 25 and inner areas.
fn capability_areas() -> Vec<Area> {
    let values = CAPABILITIES.iter();
    values.map(|value| area(2, entry(25, value))).collect()
}

/// Types that the registry does not read, with octets and, the last of them, without.
fn unknown_areas() -> Vec<Area> {
    let areas = UNKNOWN_TYPES.iter().map(|&(registry, types)| {
        let mut row: Vec<(u8, usize)> = types.iter().map(|&t| (t, 5)).collect();
        row.push((types[0], 0));
        area(registry, entries(&row))
    });
    areas.collect()
}

/// Entries in a row, of foreign types and of the registry's own.
fn sequence_areas() -> Vec<Area> {
    let foreign = FOREIGN_TYPES.map(|(registry, row)| area(registry, entries(row)));
    let own = SEQUENCES.map(|(registry, row, rest)| area(registry, [&entries(row), rest].concat()));
    [&foreign[..], &own].concat()
}

/// Entries with containers inside, each followed by another entry.
fn followed_areas() -> Vec<Area> {
    let tail = [&mixed(19), AFTER_SID[5]].concat();
    let first_entries = [
        (1, entry(5, &tail), 4),
        (2, entry(2, RANGE_VALUES[8]), 24),
        (2, entry(25, CAPABILITIES[1]), 19),
    ];
    let areas = first_entries.map(|(registry, first, next)| {
        let last = entry(next, &[0x5B]);
        area(registry, [first, last].concat())
    });
    areas.to_vec()
}

/// An area of these octets.
pub(crate) fn area(registry: u8, octets: Vec<u8>) -> Area {
    Area { registry, octets }
}

/// Entries of one type with values of these lengths.
fn lengthwise(t: u8, lengths: &[usize]) -> Vec<u8> {
    let row: Vec<(u8, usize)> = lengths.iter().map(|&length| (t, length)).collect();
    entries(&row)
}

/// Entries of these types and value lengths, with octets that take turns.
fn entries(row: &[(u8, usize)]) -> Vec<u8> {
    let entries = row.iter().enumerate();
    entries
        .flat_map(|(turn, &(t, length))| entry(t, &octets(turn, length)))
        .collect()
}

/// An entry: type, length, value.
pub(crate) fn entry(t: u8, value: &[u8]) -> Vec<u8> {
    let length = u8::try_from(value.len()).expect("a value has at most 255 octets");
    [&[t, length], value].concat()
}

/// So many octets: mixed in even turns, flipped in odd ones.
fn octets(turn: usize, count: usize) -> Vec<u8> {
    match turn % 2 {
        0 => mixed(count),
        _ => flipped(count),
    }
}

/// So many octets, all different, of high and low bits.
pub(crate) fn mixed(count: usize) -> Vec<u8> {
    let octets = (0..=u8::MAX).map(|place| place.wrapping_mul(0x9D).wrapping_add(0x96));
    octets.take(count).collect()
}

/// The same octets with every bit the other way.
pub(crate) fn flipped(count: usize) -> Vec<u8> {
    mixed(count).iter().map(|octet| !octet).collect()
}
