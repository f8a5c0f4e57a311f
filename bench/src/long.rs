//! A long run of areas, and areas of several lengths.

use std::time::Duration;

use compare::random::Random;

use crate::areas::{Area, areas};
use crate::capture::Capture;
use crate::entries::covered;
use crate::loads::Packet;
use crate::numbers::grouped;
use crate::progress::Progress;
use crate::pushers::{COUNT, Pusher, Pushers, assert_alike};
use crate::timing::{median, times};

/// How often the whole run is timed. An odd number has a median.
const PASSES: usize = 9;

/// How many packets are pushed by one before it is another's turn.
const TURN: usize = 1_000;

/// How many areas' records are held to each other at the most.
const HELD: usize = 10_000;

/// The area whose entries make the areas of several lengths.
const REPEATED: &str = "neighbor: traffic engineering (RFC 5305)";

/// These lengths.
const LENGTHS: [usize; 4] = [100, 1_000, 10_000, 65_535];

/// The rows of a long run, one for each that pushes.
const ROWS: [&str; COUNT] = ["Rust", "ours", "slim", "stores of 8", "stores of 16"];

/// The lines above them.
const RUN_HEAD: &str = "
| | records | ns a record | million octets of input a second | Rust / this |
|---|---|---|---|---|";

/// The lines above the rows of several lengths.
const LENGTHS_HEAD: &str = "
| octets | records | Rust, ns an octet | ours, ns an octet | slim, ns an octet \
| stores of 8, ns an octet | stores of 16, ns an octet |
|---|---|---|---|---|---|---|";

/// Draws a run of so many areas, times all over it and over areas of several lengths, and prints
/// both tables.
pub fn print(count: usize) {
    let stored = areas();
    print_run(count, &stored);
    let repeated = stored.iter().find(|area| area.name == REPEATED);
    print_lengths(repeated.expect("the area is stored"));
}

/// Prints the table of a long run.
fn print_run(count: usize, stored: &[Area]) {
    let capture = Capture::drawn(count, stored, &mut Random::of_this_run());
    let packets = capture.packets();
    let [areas, parts, octets] = [count, packets.len(), capture.octets()].map(grouped);
    println!("areas: {areas}; packets of 1 to 16 of them: {parts}; octets: {octets}");
    let held = grouped(hold(&packets));
    println!("the first {held}: the same records in the Rust and in both layouts of ours");
    let mut pushers = Pushers::with_room_for(&packets);
    let passes = pass_times(&packets, &mut pushers).map(|pass| pass.as_secs_f64());
    println!("{RUN_HEAD}");
    for (at, pusher) in pushers.each().into_iter().enumerate() {
        let (pass, ratio) = (passes[at], passes[0] / passes[at]);
        let records = records(pusher, &packets);
        let a_record = 1e9 * pass / records as f64;
        let speed = capture.octets() as f64 / 1e6 / pass;
        let (name, records) = (ROWS[at], grouped(records));
        println!("| {name} | {records} | {a_record:.2} | {speed:.0} | {ratio:.2} |");
    }
}

/// How many records one that pushes gives for these packets.
fn records<'areas>(pusher: &mut dyn Pusher<'areas>, packets: &[Packet<'areas>]) -> usize {
    let of_packet = |packet: &Packet<'areas>| {
        pusher.empty();
        packet.iter().map(|area| pusher.push(*area)).last()
    };
    packets.iter().filter_map(of_packet).sum()
}

/// Holds the records of the first areas to each other, and gives how many these are.
fn hold(packets: &[Packet<'_>]) -> usize {
    let areas = packets.iter().flatten().take(HELD);
    let hold = |(at, area): (usize, &_)| assert_alike(&format!("area {at}"), *area);
    areas.enumerate().map(hold).count()
}

/// The median times of a pass over all packets, of each that pushes.
fn pass_times<'areas>(
    packets: &[Packet<'areas>],
    pushers: &mut Pushers<'areas>,
) -> [Duration; COUNT] {
    let mut progress = Progress::of("timing the long run");
    let mut taken = [(); COUNT].map(|()| Vec::new());
    for pass in 0..PASSES {
        let times = one_pass(packets, pushers, pass);
        for (times, time) in taken.iter_mut().zip(times) {
            times.push(time);
        }
        progress.tell(pass + 1, PASSES);
    }
    taken.map(median)
}

/// The times of one pass, of each that pushes. Who pushes some packets first, and so finds their
/// octets least near, changes from turn to turn.
fn one_pass<'areas>(
    packets: &[Packet<'areas>],
    pushers: &mut Pushers<'areas>,
    pass: usize,
) -> [Duration; COUNT] {
    let mut times = [Duration::ZERO; COUNT];
    let pushers = pushers.each();
    for (at, packets) in packets.chunks(TURN).enumerate() {
        for turn in 0..COUNT {
            let who = (pass + at + turn) % COUNT;
            times[who] += pushers[who].time(packets, 1);
        }
    }
    times
}

/// Prints the table of areas of several lengths.
fn print_lengths(repeated: &Area) {
    println!("{LENGTHS_HEAD}");
    for length in LENGTHS {
        let area = of_length(repeated, length);
        let packets = [vec![area.input()]];
        let times = times(&packets, &mut Pushers::with_room_for(&packets));
        let octets = area.octets.len();
        let an_octet = times
            .map(|time| format!("{:.3}", time / octets as f64))
            .join(" | ");
        println!(
            "| {} | {} | {an_octet} |",
            grouped(octets),
            grouped(area.records)
        );
    }
}

/// The entries of an area over and over, as many whole ones as have this length.
fn of_length(area: &Area, length: usize) -> Area {
    let times = length.div_ceil(area.octets.len());
    let mut octets = area.octets.repeat(times);
    octets.truncate(length);
    octets.truncate(covered(&octets));
    Area::of(&area.name, area.registry, octets)
}

#[cfg(test)]
mod tests {
    use super::*;
    use wakkemosut::Registry;

    #[test]
    fn an_area_of_a_length_has_whole_entries() {
        let entries = [[18, 1, 0].to_vec(), vec![3, 2, 0, 0]].concat();
        let area = Area::of("", Registry::Neighbor, entries.clone());
        assert_eq!(of_length(&area, 14).octets, entries.repeat(2));
        let cut = [entries.clone(), vec![18, 1, 0]].concat();
        assert_eq!(of_length(&area, 13).octets, cut);
        assert_eq!(of_length(&area, 10).octets, cut);
        assert_eq!(of_length(&area, 9).octets, entries);
    }

    #[test]
    fn the_repeated_area_is_stored_and_whole() {
        let areas = areas();
        let repeated = areas.iter().find(|area| area.name == REPEATED);
        let octets = &repeated.expect("it is stored").octets;
        assert_eq!(covered(octets), octets.len());
        assert!(octets.len() < LENGTHS[0]);
    }

    #[test]
    fn records_of_the_first_areas_are_held_to_each_other() {
        let capture = Capture::drawn(HELD + 100, &areas(), &mut Random::new(2));
        assert_eq!(hold(&capture.packets()), HELD);
    }

    #[test]
    fn records_are_those_of_all_packets() {
        let areas = areas();
        let packets = [vec![areas[0].input(); 3], vec![areas[0].input()]];
        for pusher in Pushers::with_room_for(&packets).each() {
            assert_eq!(records(pusher, &packets), 20);
        }
    }

    #[test]
    fn a_pass_times_each() {
        let areas = areas();
        let packets = vec![vec![areas[0].input()]; 3 * TURN];
        let mut pushers = Pushers::with_room_for(&packets);
        let times = one_pass(&packets, &mut pushers, 0);
        assert!(times.iter().all(|time| !time.is_zero()), "{times:?}");
    }
}
