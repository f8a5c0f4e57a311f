//! The areas that are timed.

use wakkemosut::Registry;

use crate::pushers::records_of;

/// The stored areas.
const TEXT: &str = include_str!("../areas.txt");

/// An area to be pushed.
#[derive(Debug, PartialEq)]
pub struct Area {
    /// What it is.
    pub name: String,
    /// The registry that it is pushed in.
    pub registry: Registry,
    /// Its octets.
    pub octets: Vec<u8>,
    /// How many records it gives.
    pub records: usize,
}

/// What a push takes of an area.
#[derive(Clone, Copy, Debug, PartialEq)]
pub struct Input<'areas> {
    /// The registry.
    pub registry: Registry,
    /// The octets.
    pub octets: &'areas [u8],
    /// How many records they give.
    pub records: usize,
}

impl Area {
    /// The area of this name and these octets.
    pub fn of(name: &str, registry: Registry, octets: Vec<u8>) -> Self {
        Self {
            name: name.into(),
            registry,
            records: records_of(registry, &octets),
            octets,
        }
    }

    /// What a push takes of it.
    pub fn input(&self) -> Input<'_> {
        Input {
            registry: self.registry,
            octets: &self.octets,
            records: self.records,
        }
    }
}

/// The stored areas, in the order of the file.
pub fn areas() -> Vec<Area> {
    parsed(TEXT)
}

/// The areas of a text: for each a comment line and a line of registry, repetitions and octets.
fn parsed(text: &str) -> Vec<Area> {
    let mut areas = Vec::new();
    let mut name = None;
    for line in text.lines().filter(|line| !line.is_empty()) {
        match line.strip_prefix("# ") {
            Some(comment) => name = Some(comment),
            None => areas.push(area(name.take().expect(line), line)),
        }
    }
    areas
}

/// The area of a line.
fn area(name: &str, line: &str) -> Area {
    let mut words = line.split(' ');
    let registry = Registry::of(number(words.next(), line)).expect(line);
    let times = number(words.next(), line) as usize;
    let octets: Vec<u8> = words.flat_map(octets).collect();
    Area::of(name, registry, octets.repeat(times))
}

/// The number that a word is.
fn number(word: Option<&str>, line: &str) -> u64 {
    word.expect(line).parse().expect(line)
}

/// The octets of a hex word.
fn octets(word: &str) -> Vec<u8> {
    let starts = (0..word.len()).step_by(2);
    starts
        .map(|at| u8::from_str_radix(&word[at..at + 2], 16).expect(word))
        .collect()
}

#[cfg(test)]
mod tests {
    use super::*;

    #[test]
    fn a_line_gives_an_area() {
        let expected = Area {
            name: "a name".into(),
            registry: Registry::Prefix,
            octets: vec![0x12, 0xAB, 0x0C, 0x12, 0xAB, 0x0C],
            records: 2,
        };
        assert_eq!(parsed("# a\n# a name\n1 2 12AB 0C\n"), [expected]);
    }

    #[test]
    fn areas_have_names_of_their_own() {
        let areas = areas();
        let mut names: Vec<&str> = areas.iter().map(|area| &area.name[..]).collect();
        names.sort_unstable();
        names.dedup();
        assert_eq!(names.len(), areas.len());
    }

    #[test]
    fn two_areas_are_as_long_as_may_be() {
        let areas = areas();
        let longest = areas
            .iter()
            .filter(|area| area.octets.len() == wakkemosut::LONGEST_AREA);
        assert_eq!(longest.count(), 2);
    }
}
