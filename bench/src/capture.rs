//! Areas as a shift's captures would have them, drawn from a seed.

use compare::random::Random;
use wakkemosut::Registry;

use crate::areas::{Area, Input};
use crate::entries::{covered, values};
use crate::loads::{Packet, TLV, fits_tlv};
use crate::progress::Progress;
use crate::pushers::records_of;

/// The most areas of a packet.
const PACKET: usize = 16;

/// The most octets of a value that is drawn anew.
const NUMBER: usize = 8;

/// Areas one behind the other, in packets.
pub struct Capture {
    octets: Vec<u8>,
    areas: Vec<Place>,
    packets: Vec<usize>,
}

/// Where an area ends in the octets; it begins where the one before it ends.
struct Place {
    registry: Registry,
    end: usize,
}

impl Capture {
    /// As many areas as asked for, drawn from those of these that fit a TLV.
    pub fn drawn(count: usize, areas: &[Area], random: &mut Random) -> Self {
        let kinds: Vec<&Area> = areas.iter().filter(|area| fits_tlv(area)).collect();
        let mut progress = Progress::of("drawing areas");
        let mut capture = Self {
            octets: Vec::new(),
            areas: Vec::new(),
            packets: Vec::new(),
        };
        while capture.areas.len() < count {
            let size = 1 + random.below(PACKET as u64) as usize;
            let size = size.min(count - capture.areas.len());
            capture.packets.push(size);
            (0..size).for_each(|_| capture.draw(&kinds, random));
            progress.tell(capture.areas.len(), count);
        }
        capture
    }

    /// Draws one area more: one of the kinds, sometimes with another glued to it, sometimes with
    /// other numbers.
    fn draw(&mut self, kinds: &[&Area], random: &mut Random) {
        let start = self.octets.len();
        let first = random.pick(kinds);
        self.octets.extend(&first.octets);
        let second = random.pick(kinds);
        if random.below(2) == 0 && can_be_glued(first, second) {
            self.octets.extend(&second.octets);
        }
        if random.below(2) == 0 {
            draw_numbers(&mut self.octets[start..], random);
        }
        self.areas.push(Place {
            registry: first.registry,
            end: self.octets.len(),
        });
    }

    /// How many octets its areas have.
    pub fn octets(&self) -> usize {
        self.octets.len()
    }

    /// The packets.
    pub fn packets(&self) -> Vec<Packet<'_>> {
        let mut progress = Progress::of("counting records");
        let mut start = 0;
        let mut inputs = self.areas.iter().map(|place| {
            let octets = &self.octets[start..place.end];
            start = place.end;
            progress.tell(start, self.octets.len());
            Input {
                registry: place.registry,
                octets,
                records: records_of(place.registry, octets),
            }
        });
        let packet = |size: &usize| inputs.by_ref().take(*size).collect();
        self.packets.iter().map(packet).collect()
    }
}

/// Whether a second area can stand right behind a first, in one TLV.
fn can_be_glued(first: &Area, second: &Area) -> bool {
    first.registry == second.registry
        && covered(&first.octets) == first.octets.len()
        && first.octets.len() + second.octets.len() <= TLV
}

/// Draws the values of an area anew that are as short as a number.
fn draw_numbers(octets: &mut [u8], random: &mut Random) {
    for value in values(octets) {
        if value.len() <= NUMBER {
            let drawn = random.number().to_be_bytes();
            let length = value.len();
            octets[value].copy_from_slice(&drawn[..length]);
        }
    }
}

#[cfg(test)]
mod tests {
    use super::*;
    use crate::areas::areas;

    /// A capture of so many areas.
    fn capture(count: usize) -> Capture {
        Capture::drawn(count, &areas(), &mut Random::new(1))
    }

    #[test]
    fn a_capture_has_as_many_areas_as_asked_for_in_packets_of_1_to_16() {
        let capture = capture(1_000);
        let packets = capture.packets();
        let mut sizes: Vec<usize> = packets.iter().map(Vec::len).collect();
        assert_eq!(sizes.iter().sum::<usize>(), 1_000);
        sizes.sort_unstable();
        sizes.dedup();
        assert_eq!(sizes, (1..=16).collect::<Vec<usize>>());
    }

    #[test]
    fn the_same_seed_draws_the_same_areas() {
        assert_eq!(capture(100).packets(), capture(100).packets());
    }

    #[test]
    fn areas_fit_a_tlv_and_have_all_octets_in_turn() {
        let capture = capture(1_000);
        let inputs = capture.packets().concat();
        assert!(inputs.iter().all(|area| area.octets.len() <= TLV));
        let octets: Vec<u8> = inputs
            .iter()
            .flat_map(|area| area.octets)
            .copied()
            .collect();
        assert_eq!(octets, capture.octets);
    }

    #[test]
    fn some_areas_are_stored_ones_and_some_are_longer_or_have_other_numbers() {
        let stored = areas();
        let capture = capture(1_000);
        let inputs = capture.packets().concat();
        let is_stored = |area: &&Input<'_>| stored.iter().any(|one| one.octets == area.octets);
        let has_other_length = |area: &&Input<'_>| {
            let mut lengths = stored.iter().map(|one| one.octets.len());
            lengths.all(|length| length != area.octets.len())
        };
        let same = inputs.iter().filter(is_stored).count();
        let longer = inputs.iter().filter(has_other_length).count();
        assert!(
            same > 300 && longer > 50 && same + longer < 900,
            "{same} {longer}"
        );
    }

    #[test]
    fn other_numbers_leave_types_and_lengths_and_long_values() {
        let mut octets = [[1, 8].to_vec(), vec![0; 8], vec![2, 9], vec![0; 9]].concat();
        draw_numbers(&mut octets, &mut Random::new(1));
        assert_eq!(values(&octets), [2..10, 12..21]);
        assert_ne!(octets[2..10], [0; 8]);
        assert_eq!(octets[10..], [[2, 9].to_vec(), vec![0; 9]].concat());
    }

    #[test]
    fn what_ends_inside_an_entry_has_nothing_behind_it() {
        let area = |octets: &[u8]| Area::of("", Registry::Neighbor, octets.to_vec());
        let (whole, cut) = (area(&[18, 1, 0]), area(&[18, 1]));
        assert!(can_be_glued(&whole, &cut));
        assert!(!can_be_glued(&cut, &whole));
    }
}
