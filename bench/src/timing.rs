//! How long pushes take.

use std::time::Duration;

use crate::loads::Packet;
use crate::pushers::{COUNT, Pusher, Pushers};

/// How often each is timed. An odd number has a median.
const ROUNDS: usize = 51;

/// How long one timing takes at the least.
const SPAN: Duration = Duration::from_millis(2);

/// How often so many passes must take a span.
const TRIES: usize = 3;

/// One time for each that pushes.
pub type Times = [f64; COUNT];

/// The median times of all over these packets, taking turns, in nanoseconds for a push.
pub fn times<'areas>(packets: &[Packet<'areas>], pushers: &mut Pushers<'areas>) -> Times {
    let mut timings = pushers.each().map(|pusher| Timings::of(packets, pusher));
    for _ in 0..ROUNDS {
        timings.iter_mut().for_each(Timings::take);
    }
    timings.map(Timings::a_push)
}

/// The timings of one pusher over packets.
struct Timings<'run, 'areas> {
    packets: &'run [Packet<'areas>],
    pusher: &'run mut dyn Pusher<'areas>,
    passes: usize,
    taken: Vec<Duration>,
}

impl<'run, 'areas> Timings<'run, 'areas> {
    /// None yet, over these packets.
    fn of(packets: &'run [Packet<'areas>], pusher: &'run mut dyn Pusher<'areas>) -> Self {
        Self {
            passes: passes(packets, pusher),
            packets,
            pusher,
            taken: Vec::new(),
        }
    }

    /// Takes one more.
    fn take(&mut self) {
        let taken = self.pusher.time(self.packets, self.passes);
        self.taken.push(taken);
    }

    /// The median time of a push.
    fn a_push(self) -> f64 {
        a_push(median(self.taken), self.passes * pushes(self.packets))
    }
}

/// How many pushes a pass over these packets has.
fn pushes(packets: &[Packet<'_>]) -> usize {
    packets.iter().map(Vec::len).sum()
}

/// How many passes over these packets take a span, each of several times: one that is held up does
/// not count.
fn passes<'areas>(packets: &[Packet<'areas>], pusher: &mut dyn Pusher<'areas>) -> usize {
    let mut passes = 1;
    while (0..TRIES).any(|_| pusher.time(packets, passes) < SPAN) {
        passes *= 2;
    }
    passes
}

/// The nanoseconds of one push, where so many take this time.
fn a_push(time: Duration, pushes: usize) -> f64 {
    time.as_nanos() as f64 / pushes as f64
}

/// The middle one by size.
pub fn median(mut times: Vec<Duration>) -> Duration {
    times.sort_unstable();
    times[times.len() / 2]
}

#[cfg(test)]
mod tests {
    use super::*;
    use crate::areas::{Input, areas};

    #[test]
    fn the_median_is_in_the_middle() {
        let times = [9, 1, 8, 2, 5].map(Duration::from_millis);
        assert_eq!(median(times.to_vec()), Duration::from_millis(5));
    }

    /// A pusher that is held up in its first push.
    #[derive(Default)]
    struct HeldUp(usize);

    impl Pusher<'_> for HeldUp {
        fn empty(&mut self) {}

        fn push(&mut self, _area: Input<'_>) -> usize {
            if self.0 == 0 {
                std::thread::sleep(SPAN);
            }
            self.0 += 1;
            self.0
        }
    }

    #[test]
    fn one_pass_that_is_held_up_does_not_count() {
        let areas = areas();
        let packets = [vec![areas[0].input()]];
        assert!(passes(&packets, &mut HeldUp::default()) > 1);
    }

    #[test]
    fn a_pass_has_the_pushes_of_all_packets() {
        let areas = areas();
        let packets = [vec![areas[0].input(); 3], vec![areas[1].input()]];
        assert_eq!(pushes(&packets), 4);
    }

    #[test]
    fn a_push_is_one_of_many() {
        assert_eq!(a_push(Duration::from_micros(9), 4), 2250.0);
    }

    #[test]
    fn timings_give_the_median_of_a_push() {
        let areas = areas();
        let packets = [vec![areas[0].input(); 4]];
        let timings = Timings {
            packets: &packets,
            pusher: &mut HeldUp::default(),
            passes: 2,
            taken: [9, 1, 4].map(Duration::from_micros).to_vec(),
        };
        assert_eq!(timings.a_push(), 500.0);
    }
}
