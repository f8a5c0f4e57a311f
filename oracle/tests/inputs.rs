//! The inputs that a dump program is judged by: what they reach.

mod table;

use std::collections::HashSet;
use std::sync::LazyLock;

use oracle::{LAST_REGISTRY, dump_inputs, dumped};
use table::ROWS;

/// All inputs.
static INPUTS: LazyLock<Vec<Vec<u8>>> = LazyLock::new(dump_inputs);

/// Registry, base and area of every input that has them.
fn pushes() -> impl Iterator<Item = (u8, u32, &'static [u8])> {
    INPUTS.iter().filter_map(|input| {
        let (&[registry, ref base @ ..], area) = input.split_first_chunk::<5>()?;
        Some((registry, u32::from_be_bytes(*base), area))
    })
}

/// The numbers of each line that is to be printed for an input.
fn lines(input: &[u8]) -> Vec<Vec<u64>> {
    let text = dumped(input);
    let numbers = |line: &str| line.split(' ').map(|word| word.parse().unwrap()).collect();
    text.lines().map(numbers).collect()
}

/// The lines of all records.
fn all_records() -> impl Iterator<Item = Vec<u64>> {
    INPUTS
        .iter()
        .flat_map(|input| lines(input).into_iter().skip(1))
}

/// How many inputs get this answer.
fn answered(answer: u64) -> usize {
    INPUTS
        .iter()
        .filter(|input| lines(input)[0][0] == answer)
        .count()
}

/// Whether an area stands at this base in this registry.
fn stands(registry: u8, base_of: impl Fn(u64) -> u64) -> bool {
    pushes().any(|(one, base, area)| {
        let length = area.len() as u64;
        one == registry && length > 0 && u64::from(base) == base_of(length)
    })
}

#[test]
fn there_are_hundreds_of_inputs_each_once() {
    let once: HashSet<_> = INPUTS.iter().collect();
    println!("{} inputs", INPUTS.len());
    assert!((300..=700).contains(&INPUTS.len()));
    assert_eq!(once.len(), INPUTS.len());
}

#[test]
fn every_row_has_values_around_its_least_length_and_longer_ones() {
    let areas: HashSet<_> = pushes()
        .filter_map(|(registry, _, area)| match area {
            [t, length, value @ ..] if usize::from(*length) == value.len() => {
                Some((registry, *t, value.len()))
            }
            _ => None,
        })
        .collect();
    for (registry, t, least) in ROWS {
        let shorter = least.saturating_sub(1);
        for length in [shorter, least, least + 1, least + 40, 255] {
            assert!(
                areas.contains(&(registry, t, length)),
                "{registry} {t} {length}"
            );
        }
    }
}

#[test]
fn every_answer_is_met() {
    assert!(answered(0) > 400);
    assert!(answered(1) > 10);
    assert!(answered(3) > 20);
    assert!(answered(10) > 40);
}

#[test]
fn every_label_shape_and_registry_is_printed() {
    let values = |column: usize| all_records().map(move |record| record[column]);
    assert_eq!(values(1).collect::<HashSet<_>>(), (0..=56).collect());
    assert_eq!(values(2).collect::<HashSet<_>>(), (0..=8).collect());
    assert_eq!(values(3).collect::<HashSet<_>>(), (0..=5).collect());
}

#[test]
fn areas_stand_inside_areas() {
    for (outer, inner) in [(0, 4), (1, 4), (2, 5)] {
        let nested = INPUTS.iter().filter(|input| {
            let of = |registry| move |line: &Vec<u64>| line.get(3) == Some(&registry);
            let records = &lines(input)[1..];
            records.iter().any(of(outer)) && records.iter().any(of(inner))
        });
        assert!(nested.count() >= 5, "{inner} in {outer}");
    }
}

#[test]
fn pushes_have_any_number_of_records_up_to_the_most() {
    let most = 1 + 7 * 768 / 3;
    let counts: HashSet<u64> = INPUTS.iter().map(|input| lines(input)[0][2]).collect();
    assert_eq!(counts.iter().max(), Some(&most));
    for hundred in (0..most).step_by(100) {
        let next = hundred..hundred + 100;
        assert!(counts.iter().any(|count| next.contains(count)));
    }
}

#[test]
fn every_length_at_a_limit_is_there() {
    let lengths: HashSet<usize> = INPUTS.iter().map(Vec::len).collect();
    assert!((0..=5).all(|length| lengths.contains(&length)));
    assert!(lengths.contains(&70_005));
    for registry in 0..=LAST_REGISTRY {
        let areas = pushes().filter(|&(one, _, _)| one == registry);
        let lengths: HashSet<usize> = areas.map(|(_, _, area)| area.len()).collect();
        for length in [0, 767, 768, 769] {
            assert!(lengths.contains(&length), "{length} in registry {registry}");
        }
    }
}

#[test]
fn every_registry_has_every_base() {
    for registry in 0..=LAST_REGISTRY {
        for base in [0, 100, 65_535, 1 << 31] {
            assert!(stands(registry, |_| base));
        }
        assert!(stands(registry, |length| 4_294_967_295 - length));
        assert!(stands(registry, |length| 4_294_967_296 - length));
    }
}

#[test]
fn numbers_that_are_no_registry_are_there_with_areas_of_all_kinds() {
    for number in [6, 7, 255] {
        let is_there = |base: u32, length: usize| {
            let mut pushes = pushes();
            pushes.any(|push| (push.0, push.1, push.2.len()) == (number, base, length))
        };
        for length in [0, 1, 768, 769] {
            assert!(is_there(100, length) && is_there(u32::MAX, length));
        }
    }
}
