//! The pushes that are counted.

use std::hint::black_box;

use crate::areas::{Area, Input, areas};
use crate::pushers::{Pusher, Pushers};

/// The areas whose push is counted.
const NAMES: [&str; 5] = [
    "neighbor: a metric alone",
    "prefix: Prefix-SID and attribute flags",
    "neighbor: traffic engineering (RFC 5305)",
    "neighbor: SRv6 End.X and LAN End.X SIDs",
    "the longest area: a neighbor of 255 octets, over and over",
];

/// Those areas, in this order.
pub fn counted_areas() -> Vec<Area> {
    let place = |area: &Area| NAMES.iter().position(|name| *name == area.name);
    let mut areas = areas();
    areas.retain(|area| place(area).is_some());
    areas.sort_by_key(place);
    areas
}

/// Makes all ready for the pushes that are counted, and then the first so many of them: each area
/// with each that pushes, onto an empty buffer. Nothing here depends on a time.
pub fn push_first(pushes: usize) {
    let areas = counted_areas();
    let mut pushers: Vec<Pushers<'_>> = areas.iter().map(ready).collect();
    let mut all: Vec<(&mut dyn Pusher<'_>, Input<'_>)> = Vec::new();
    for (pushers, area) in pushers.iter_mut().zip(&areas) {
        all.extend(pushers.each().map(|pusher| (pusher, area.input())));
    }
    for (pusher, area) in all.iter_mut().take(pushes) {
        black_box(pusher.push(*area));
    }
}

/// All that push, with empty buffers onto which each has pushed an area before.
fn ready(area: &Area) -> Pushers<'_> {
    let mut pushers = Pushers::with_room_for(&[vec![area.input()]]);
    for pusher in pushers.each() {
        pusher.empty();
        pusher.push(area.input());
        pusher.empty();
    }
    pushers
}

#[cfg(test)]
mod tests {
    use super::*;

    #[test]
    fn all_areas_that_are_counted_are_stored() {
        let areas = counted_areas();
        let octets: Vec<usize> = areas.iter().map(|area| area.octets.len()).collect();
        assert_eq!(octets, [5, 11, 79, 137, 65_535]);
    }

    #[test]
    fn what_is_ready_is_empty() {
        let areas = counted_areas();
        for pusher in ready(&areas[0]).each() {
            assert_eq!(pusher.push(areas[0].input()), 5);
        }
    }
}
