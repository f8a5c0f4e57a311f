//! The inputs that a dump program is judged by.

use std::collections::HashSet;

use crate::LAST_REGISTRY;
use crate::areas::{Area, area, areas, entry};
use crate::replay::{
    GREAT_AREAS, base, damaged_areas, fillings, great_areas, lengths_around, rows,
};

/// Numbers that are no registry's.
const NO_REGISTRIES: [u8; 3] = [6, 7, 255];

/// The octets of inputs that end before an area can begin, the longest of them.
const CUT_OFF: [[u8; 4]; 3] = [[0; 4], [6, 0, 0, 0], [0xFF; 4]];

/// Of so many damaged areas one is an input.
const DAMAGED_STRIDE: usize = 17;

/// The entry that needs the most records for its octets, and its registry.
const RICHEST: (u8, [u8; 3]) = (1, [0x04, 0x01, 0xA0]);

/// How many octets more there are, from one area of many records to the next.
const RICH_STRIDE: usize = 16;

/// The greatest lengths of an area that are taken, and one more.
const GREATEST_LENGTHS: [usize; 3] = [767, 768, 769];

/// Bases at which every area fits.
const PLAIN_BASES: [u32; 4] = [0, 100, 65_535, 1 << 31];

/// Lengths of areas that stand at the greatest bases.
const EDGE_LENGTHS: [usize; 3] = [0, 1, 768];

/// Lengths of areas in no registry.
const LENGTHS_OF_NONE: [usize; 5] = [0, 1, 768, 769, 770];

/// Lengths of areas that are far too long; in two octets, some would be counted as short ones.
const LONG_LENGTHS: [usize; 6] = [770, 1_024, 4_096, 65_531, 65_541, 70_000];

/// All inputs of the dump program, each once.
pub fn dump_inputs() -> Vec<Vec<u8>> {
    let groups = [
        cut_off_inputs(),
        pushes(areas()),
        pushes(row_areas()),
        pushes(some_damaged_areas()),
        pushes(great_areas()),
        pushes(rich_areas()),
        pushes(greatest_areas()),
        base_inputs(),
        edge_inputs(),
        inputs_of_no_registry(),
        long_inputs(),
    ];
    let mut met = HashSet::new();
    let all = groups.concat().into_iter();
    all.filter(|input| met.insert(input.clone())).collect()
}

/// An input: registry, base, area.
fn input(registry: u8, base: u32, area: &[u8]) -> Vec<u8> {
    [&[registry], &base.to_be_bytes()[..], area].concat()
}

/// The inputs of areas, whose bases take turns.
fn pushes(areas: Vec<Area>) -> Vec<Vec<u8>> {
    let areas = areas.iter().enumerate();
    let inputs = areas.map(|(turn, area)| {
        let base = base(turn, area.octets.len());
        input(area.registry, base, &area.octets)
    });
    inputs.collect()
}

/// Inputs of 0 to 4 octets.
fn cut_off_inputs() -> Vec<Vec<u8>> {
    let inputs = CUT_OFF.iter().flat_map(|longest| {
        let lengths = 0..=longest.len();
        lengths.map(|length| longest[..length].to_vec())
    });
    inputs.collect()
}

/// Values of every type that is read, around its least length, whose fillings take turns.
fn row_areas() -> Vec<Area> {
    let values = rows().flat_map(|(registry, t, least)| {
        let lengths = lengths_around(least);
        lengths.map(move |length| (registry, t, length))
    });
    let areas = values.enumerate().map(|(turn, (registry, t, length))| {
        let fillings = fillings(length);
        area(registry, entry(t, &fillings[turn % fillings.len()]))
    });
    areas.collect()
}

/// Some of the damaged areas.
fn some_damaged_areas() -> Vec<Area> {
    let areas = damaged_areas().into_iter();
    areas.step_by(DAMAGED_STRIDE).collect()
}

/// Areas of ever more records, up to the most that 768 octets can need.
fn rich_areas() -> Vec<Area> {
    let (registry, entry) = RICHEST;
    let lengths = (RICH_STRIDE..=768).step_by(RICH_STRIDE);
    let areas = lengths.map(|length| repeated(registry, &entry, length));
    areas.collect()
}

/// An area of so many octets that are an entry again and again, the last one cut off.
fn repeated(registry: u8, entry: &[u8], length: usize) -> Area {
    let octets = entry.iter().copied().cycle();
    area(registry, octets.take(length).collect())
}

/// In every registry, areas of the greatest lengths that are taken, and one octet longer.
fn greatest_areas() -> Vec<Area> {
    let areas = GREAT_AREAS.iter().flat_map(|&(registry, entry, _)| {
        let lengths = GREATEST_LENGTHS.iter();
        lengths.map(move |&length| repeated(registry, entry, length))
    });
    areas.collect()
}

/// In every registry, an area at each base.
fn base_inputs() -> Vec<Vec<u8>> {
    let inputs = GREAT_AREAS.iter().flat_map(|&(registry, entry, _)| {
        let area = entry.repeat(2);
        let bases = [&PLAIN_BASES[..], &edge_bases(area.len())].concat();
        bases
            .into_iter()
            .map(move |base| input(registry, base, &area))
    });
    inputs.collect()
}

/// The greatest base at which an area of this length fits, one more, and the greatest of all.
fn edge_bases(length: usize) -> [u32; 3] {
    let fits = u32::MAX - length as u32;
    [fits, fits.saturating_add(1), u32::MAX]
}

/// In every registry, areas at the greatest bases.
fn edge_inputs() -> Vec<Vec<u8>> {
    let registries: Vec<u8> = (0..=LAST_REGISTRY).collect();
    crossed(&registries, &EDGE_LENGTHS, |length| {
        edge_bases(length).to_vec()
    })
}

/// Inputs of no registry, some of them too long, at bases where the area fits and does not.
fn inputs_of_no_registry() -> Vec<Vec<u8>> {
    crossed(&NO_REGISTRIES, &LENGTHS_OF_NONE, |_| vec![100, u32::MAX])
}

/// Inputs that are far too long, of a registry and of none, at bases where the area fits and does
/// not.
fn long_inputs() -> Vec<Vec<u8>> {
    crossed(&[1, 6], &LONG_LENGTHS, |_| vec![100, u32::MAX])
}

/// An input for each registry, each length of the area and each base that goes with the length.
fn crossed(
    registries: &[u8],
    lengths: &[usize],
    bases: impl Fn(usize) -> Vec<u32>,
) -> Vec<Vec<u8>> {
    let mut inputs = Vec::new();
    for &registry in registries {
        for &length in lengths {
            let area = repeated(registry, &RICHEST.1, length).octets;
            let bases = bases(length).into_iter();
            inputs.extend(bases.map(|base| input(registry, base, &area)));
        }
    }
    inputs
}
