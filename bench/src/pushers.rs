//! Those that push, each into a buffer of its own that is kept from push to push.

use std::hint::black_box;
use std::marker::PhantomData;
use std::time::{Duration, Instant};

use oracle::bench::push_onto;
use oracle::packet::DissectBuffer;
use wakkemosut::{Layout, Position, Registry, Slim, Tape, Usual, most_records};

use crate::areas::Input;
use crate::loads::Packet;
use crate::stores::{Of8, Of16, Stores};

/// The place of every area's first octet.
const BASE: u32 = 100;

/// One that pushes areas.
pub trait Pusher<'areas> {
    /// Takes all records off. It comes before the first push.
    fn empty(&mut self);

    /// Pushes an area behind what is there, and gives the count of all records that are there then.
    fn push(&mut self, area: Input<'areas>) -> usize;

    /// How long so many passes over these packets take. It is never inlined, so that each pusher
    /// has a loop of its own.
    #[inline(never)]
    fn time(&mut self, packets: &[Packet<'areas>], passes: usize) -> Duration {
        let start = Instant::now();
        for _ in 0..passes {
            for packet in packets {
                self.empty();
                for area in packet {
                    black_box(self.push(*area));
                }
            }
        }
        start.elapsed()
    }
}

/// How many there are that push.
pub const COUNT: usize = 5;

/// All that push.
pub struct Pushers<'areas> {
    rust: Rust<'areas>,
    ours: Ours<Usual>,
    slim: Ours<Slim>,
    stores_of_8: Stores<Of8>,
    stores_of_16: Stores<Of16>,
}

impl<'areas> Pushers<'areas> {
    /// With room for each of these packets.
    pub fn with_room_for(packets: &[Packet<'areas>]) -> Self {
        Self {
            rust: Rust::with_room_for(packets),
            ours: Ours::with_room_for(packets),
            slim: Ours::with_room_for(packets),
            stores_of_8: Stores::with_room_for(packets),
            stores_of_16: Stores::with_room_for(packets),
        }
    }

    /// Each of them: the Rust, ours in the usual and in the slim layout, stores of 8 octets and of
    /// 16. All tables have them in this order.
    pub fn each(&mut self) -> [&mut dyn Pusher<'areas>; COUNT] {
        [
            &mut self.rust,
            &mut self.ours,
            &mut self.slim,
            &mut self.stores_of_8,
            &mut self.stores_of_16,
        ]
    }
}

/// The proved library, on a tape of a layout.
pub struct Ours<L: Layout = Usual> {
    words: Vec<u64>,
    layout: PhantomData<L>,
}

/// The Rust module, on the stand-in for its buffer.
pub struct Rust<'areas> {
    buffer: DissectBuffer<'areas>,
}

impl<L: Layout> Ours<L> {
    /// With room to spare for each of these packets.
    pub fn with_room_for(packets: &[Packet<'_>]) -> Self {
        Self {
            words: vec![0; Tape::<L>::words_in_layout(most_records_of(packets))],
            layout: PhantomData,
        }
    }
}

/// The most records that the areas of any of these packets can need.
pub fn most_records_of(packets: &[Packet<'_>]) -> usize {
    let need = |area: &Input<'_>| most_records(area.octets.len());
    let needs = packets.iter().map(|packet| packet.iter().map(need).sum());
    needs.max().unwrap_or(0)
}

/// How many records an area gives, by the Rust.
pub fn records_of(registry: Registry, octets: &[u8]) -> usize {
    let mut buffer = DissectBuffer::new();
    push_onto(&mut buffer, registry.number() as u8, BASE, octets);
    buffer.fields().len()
}

impl<'areas> Rust<'areas> {
    /// With room for each of these packets: it was pushed before.
    pub fn with_room_for(packets: &[Packet<'areas>]) -> Self {
        let mut rust = Self {
            buffer: DissectBuffer::new(),
        };
        for packet in packets {
            rust.empty();
            for area in packet {
                rust.push(*area);
            }
        }
        rust
    }
}

impl<L: Layout> Pusher<'_> for Ours<L> {
    fn empty(&mut self) {
        let mut tape = Tape::<L>::in_layout(&mut self.words);
        tape.clear().expect("there is room for a header");
    }

    fn push(&mut self, area: Input<'_>) -> usize {
        let mut tape = Tape::<L>::in_layout(&mut self.words);
        let octets = black_box(area.octets);
        let laid = tape.push(area.registry, BASE.into(), octets);
        laid.expect("the area is not refused");
        // The first word is the count; to ask the tape for it would be a call that is timed too.
        black_box(tape.words())[0] as usize
    }
}

impl<'areas> Pusher<'areas> for Rust<'areas> {
    fn empty(&mut self) {
        self.buffer.clear();
    }

    fn push(&mut self, area: Input<'areas>) -> usize {
        let octets = black_box(area.octets);
        let registry = area.registry.number() as u8;
        push_onto(&mut self.buffer, registry, BASE, octets);
        black_box(self.buffer.fields()).len()
    }
}

/// Asserts that the Rust and both layouts of ours give the same records for an area, and cover the
/// same octets. A failure says what area it is.
pub fn assert_alike(name: &str, area: Input<'_>) {
    let expected = oracle::push(area.registry.number() as u8, BASE, area.octets);
    assert_eq!(area.records, expected.records.len(), "{name}");
    assert_gives::<Usual>(name, area, &expected);
    assert_gives::<Slim>(name, area, &expected);
}

/// Asserts that a tape of a layout, with just the room for them, gets these records for an area.
fn assert_gives<L: Layout>(name: &str, area: Input<'_>, expected: &oracle::Push) {
    let mut lent = vec![u64::MAX; Tape::<L>::words_in_layout(area.records)];
    let mut tape = Tape::<L>::cleared_in_layout(&mut lent).expect("there is room for a header");
    let laid = tape.push(area.registry, BASE.into(), area.octets);
    let laid = laid.expect("the area is not refused");
    let written = area.records as u64;
    assert_eq!(laid.covered, expected.covered, "{name}");
    assert_eq!(laid.written, written, "{name}");
    let records = (0..written).map(|at| tape.read(Position(at)).expect("it was written").words());
    assert!(records.eq(expected.records.iter().map(words)), "{name}");
}

/// The six words of a record.
fn words(record: &oracle::Record) -> [u64; 6] {
    let label = u64::from(record.label);
    let shape = u64::from(record.shape);
    let registry = u64::from(record.registry);
    [
        label + 256 * shape + 65_536 * registry,
        record.first,
        record.past_last,
        record.number,
        record.first_child,
        record.past_children,
    ]
}

#[cfg(test)]
mod tests {
    use std::slice;

    use super::*;
    use crate::areas::areas;
    use crate::loads::{loads, packets};

    /// The counts of records after each push of a packet, of each that pushes.
    fn counts<'areas>(
        pushers: &mut Pushers<'areas>,
        packet: &[Input<'areas>],
    ) -> [Vec<usize>; COUNT] {
        pushers.each().map(|pusher| {
            pusher.empty();
            packet.iter().map(|area| pusher.push(*area)).collect()
        })
    }

    #[test]
    fn all_have_the_same_counts_of_records_again_and_again() {
        let areas = areas();
        let packets = packets(&loads(&areas, 16));
        let mut pushers = Pushers::with_room_for(&packets);
        for packet in packets.iter().chain(packets.iter().rev()) {
            let [of_rust, others @ ..] = counts(&mut pushers, packet);
            assert!(of_rust[0] > 0, "{packet:?}");
            assert!(others.iter().all(|counts| *counts == of_rust), "{packet:?}");
        }
    }

    #[test]
    fn a_push_goes_behind_what_is_there_in_all() {
        let areas = areas();
        let packet = vec![areas[0].input(); 3];
        let mut pushers = Pushers::with_room_for(slice::from_ref(&packet));
        for counts in counts(&mut pushers, &packet) {
            assert_eq!(counts, [5, 10, 15]);
        }
    }

    #[test]
    fn ours_has_room_for_the_most_that_the_largest_packet_can_need() {
        let areas = areas();
        let (small, large) = (areas[0].input(), areas[1].input());
        let packets = [vec![large], vec![small, large, large], vec![small; 3]];
        let room = most_records(small.octets.len()) + 2 * most_records(large.octets.len());
        let ours = Ours::<Usual>::with_room_for(&packets);
        assert_eq!(ours.words.len(), Tape::words_for(room));
        let slim = Ours::<Slim>::with_room_for(&packets);
        assert_eq!(slim.words.len(), Tape::slim_words_for(room));
    }

    #[test]
    fn whole_packets_were_pushed_into_the_buffer_of_the_rust() {
        let areas = areas();
        let packets = [vec![areas[1].input(); 2], vec![areas[0].input(); 16]];
        let rust = Rust::with_room_for(&packets);
        assert_eq!(rust.buffer.fields().len(), 16 * 5);
    }

    /// A pusher that counts the pushes after each emptying.
    #[derive(Default)]
    struct Counting(Vec<usize>);

    impl Pusher<'_> for Counting {
        fn empty(&mut self) {
            self.0.push(0);
        }

        fn push(&mut self, _area: Input<'_>) -> usize {
            let pushes = self.0.last_mut().expect("it was emptied first");
            *pushes += 1;
            *pushes
        }
    }

    #[test]
    fn a_pass_empties_before_each_packet_and_pushes_its_areas() {
        let areas = areas();
        let packets = [vec![areas[0].input(); 3], vec![areas[1].input()]];
        let mut counting = Counting::default();
        counting.time(&packets, 2);
        assert_eq!(counting.0, [3, 1, 3, 1]);
    }
}
