//! What is timed: areas in packets.

use crate::areas::{Area, Input};

/// The most octets of an area inside one TLV.
pub const TLV: usize = 255;

/// Areas that are pushed one behind the other onto one buffer.
pub type Packet<'areas> = Vec<Input<'areas>>;

/// One row's work: packets that are pushed in turn.
pub struct Load<'areas> {
    /// What the table calls it.
    pub name: &'areas str,
    /// The areas, each once.
    pub areas: Vec<&'areas Area>,
    /// The packets of a pass.
    pub packets: Vec<Packet<'areas>>,
}

impl<'areas> Load<'areas> {
    /// One area alone: a packet full of it, or of it once where it does not fit a TLV.
    fn of_one(area: &'areas Area, size: usize) -> Self {
        let times = if fits_tlv(area) { size } else { 1 };
        Self {
            name: &area.name,
            areas: vec![area],
            packets: vec![vec![area.input(); times]],
        }
    }

    /// Areas in turn.
    fn in_turn(name: &'areas str, areas: Vec<&'areas Area>, size: usize) -> Self {
        let packets = cut(&areas, size);
        Self {
            name,
            areas,
            packets,
        }
    }
}

/// Each area alone, then those that fit a TLV and all, in turn; a packet has at most `size` areas.
pub fn loads(areas: &[Area], size: usize) -> Vec<Load<'_>> {
    let alone = areas.iter().map(|area| Load::of_one(area, size));
    let short = areas.iter().filter(|area| fits_tlv(area)).collect();
    let all = areas.iter().collect();
    let in_turn = [
        Load::in_turn("all that fit a TLV, in turn", short, size),
        Load::in_turn("all, in turn", all, size),
    ];
    alone.chain(in_turn).collect()
}

/// The packets of all loads.
pub fn packets<'areas>(loads: &[Load<'areas>]) -> Vec<Packet<'areas>> {
    loads.iter().flat_map(|load| load.packets.clone()).collect()
}

/// Areas cut into packets of at most `size`: first those that fit a TLV, then each other alone.
fn cut<'areas>(areas: &[&'areas Area], size: usize) -> Vec<Packet<'areas>> {
    let (short, long): (Vec<&Area>, Vec<&Area>) = areas.iter().partition(|area| fits_tlv(area));
    let together = short.chunks(size);
    let alone = long.chunks(1);
    together.chain(alone).map(packet).collect()
}

/// The packet of these areas.
fn packet<'areas>(areas: &[&'areas Area]) -> Packet<'areas> {
    areas.iter().map(|area| area.input()).collect()
}

/// Whether an area fits a TLV.
pub fn fits_tlv(area: &Area) -> bool {
    area.octets.len() <= TLV
}

#[cfg(test)]
mod tests {
    use super::*;
    use crate::areas::areas;
    use wakkemosut::Registry;

    /// An area of so many octets.
    fn of_octets(octets: usize) -> Area {
        Area::of(&octets.to_string(), Registry::Neighbor, vec![0; octets])
    }

    /// The octets of each area of each packet.
    fn octets(packets: &[Packet<'_>]) -> Vec<Vec<usize>> {
        let of_packet = |packet: &Packet<'_>| packet.iter().map(|area| area.octets.len()).collect();
        packets.iter().map(of_packet).collect()
    }

    #[test]
    fn a_short_area_alone_fills_a_packet() {
        let area = of_octets(255);
        let load = Load::of_one(&area, 16);
        assert_eq!(load.areas, [&area]);
        assert_eq!(load.packets, [vec![area.input(); 16]]);
    }

    #[test]
    fn a_long_area_alone_is_pushed_once() {
        let area = of_octets(256);
        let load = Load::of_one(&area, 16);
        assert_eq!(load.areas, [&area]);
        assert_eq!(load.packets, [[area.input()]]);
    }

    #[test]
    fn areas_are_cut_into_packets_and_long_ones_stand_alone() {
        let areas = [1, 256, 2, 3, 300, 255, 4].map(of_octets);
        let load = Load::in_turn("", areas.iter().collect(), 2);
        let expected: [&[usize]; 5] = [&[1, 2], &[3, 255], &[4], &[256], &[300]];
        assert_eq!(octets(&load.packets), expected);
        assert!(load.areas.iter().copied().eq(&areas));
    }

    #[test]
    fn with_one_area_a_packet_each_stands_alone() {
        let areas = areas();
        let loads = loads(&areas, 1);
        assert!(packets(&loads).iter().all(|packet| packet.len() == 1));
        let all = loads.last().expect("there are loads");
        assert_eq!(all.packets.concat(), packet(&all.areas));
    }

    #[test]
    fn there_are_areas_in_every_load() {
        let areas = areas();
        let loads = loads(&areas, 16);
        let counts: Vec<usize> = loads.iter().map(|load| load.areas.len()).collect();
        let [alone @ .., short, all] = &counts[..] else {
            panic!("{counts:?}");
        };
        assert!(alone.iter().all(|count| *count == 1));
        assert_eq!(alone.len(), areas.len());
        assert_eq!((*short, *all), (areas.len() - 2, areas.len()));
    }

    #[test]
    fn the_short_areas_in_turn_are_one_packet_and_the_long_two_more() {
        let areas = areas();
        let loads = loads(&areas, 16);
        let [.., short, all] = &loads[..] else {
            panic!("{} loads", loads.len());
        };
        let sizes = |load: &Load<'_>| load.packets.iter().map(Vec::len).collect::<Vec<usize>>();
        assert_eq!(sizes(short), [14]);
        assert_eq!(sizes(all), [14, 1, 1]);
    }

    #[test]
    fn all_packets_are_those_of_each_load() {
        let areas = [3, 256].map(of_octets);
        let packets = packets(&loads(&areas, 2));
        let expected: [&[usize]; 5] = [&[3, 3], &[256], &[3], &[3], &[256]];
        assert_eq!(octets(&packets), expected);
    }
}
