//! Comparisons of areas, each on a tape and at a base of its own.

use crate::agree::Tally;
use crate::areas;
use crate::layout::Layout;
use crate::native::{Area, Record};
use crate::random::Random;
use crate::shown::{LAST_PLACE, Shown};
use crate::tapes;

/// The most records that stand on a tape before a call.
const MOST_EARLIER: u64 = 6;

/// A comparison: what it counts, and where its tapes and bases come from.
#[derive(Debug)]
pub struct Comparison {
    /// The calls compared.
    pub tally: Tally,
    /// The source of all that is random.
    pub random: Random,
}

impl Comparison {
    /// A comparison of nothing yet in each layout, from the seed of this run, which is printed.
    pub fn in_each_layout() -> [Self; 2] {
        Layout::ALL.map(|layout| Self::new(layout, Random::of_this_run()))
    }

    /// A comparison of nothing yet.
    pub fn new(layout: Layout, random: Random) -> Self {
        let tally = Tally::of(layout);
        Self { tally, random }
    }

    /// Compares walks and pushes of an area, behind earlier records and with room for none, for
    /// one record too few, for exactly enough and for more.
    pub fn every_room(&mut self, registry: u8, octets: &[u8]) {
        let shown = self.shown(registry, octets);
        let earlier = earlier(&mut self.random, self.tally.layout());
        self.tally.every_room(&mut self.random, &shown, &earlier);
    }

    /// Compares a walk and a push of an area, behind earlier records and with exactly enough room.
    pub fn exact_room(&mut self, registry: u8, octets: &[u8]) {
        let shown = self.shown(registry, octets);
        let layout = self.tally.layout();
        let earlier = earlier(&mut self.random, layout);
        let mut tape = |room| tapes::with_room(&mut self.random, layout, &earlier, room);
        self.tally.walk(&shown, &tape(shown.needed_by_walk()));
        self.tally.push(&shown, &tape(shown.needed_by_push()));
    }

    /// Compares a walk or, three times out of four, a push of a random area onto a random tape.
    pub fn any_case(&mut self) {
        let random = &mut self.random;
        let layout = self.tally.layout();
        let (registry, base, octets) = any_area(random);
        let shown = Shown::of(Area::new(registry, base, &octets));
        if random.below(4) > 0 {
            let tape = any_tape(random, layout, shown.needed_by_push());
            self.tally.push(&shown, &tape);
        } else {
            let tape = any_tape(random, layout, shown.needed_by_walk());
            self.tally.walk(&shown, &tape);
        }
    }

    /// What the oracle shows of an area, at a base that is not refused.
    fn shown<'a>(&mut self, registry: u8, octets: &'a [u8]) -> Shown<'a> {
        let base = sound_base(&mut self.random, octets.len() as u64);
        Shown::of(Area::new(registry.into(), base, octets))
    }
}

/// Records that stand on a tape before a call: none, a forest, or any words.
pub fn earlier(random: &mut Random, layout: Layout) -> Vec<Record> {
    let count = random.below(MOST_EARLIER + 1);
    match random.below(4) {
        0 => Vec::new(),
        1 => (0..count)
            .map(|_| tapes::any_record(random, layout))
            .collect(),
        _ => tapes::forest(random, layout, count as usize, 4),
    }
}

/// The registry, the base and the octets of a random area, which now and then is refused.
pub fn any_area(random: &mut Random) -> (u64, u64, Vec<u8>) {
    let own = random.below(6);
    let octets = any_octets(random, own as u8);
    let registry = any_registry(random, own);
    let base = any_base(random, octets.len() as u64);
    (registry, base, octets)
}

/// A base that an area of this length is not refused at: 0, the greatest, or any.
fn sound_base(random: &mut Random, length: u64) -> u64 {
    let greatest = LAST_PLACE - length;
    let any = random.below(greatest + 1);
    random.pick(&[0, greatest, any])
}

/// A base for an area of this length, now and then near the limit or past it.
fn any_base(random: &mut Random, length: u64) -> u64 {
    match random.below(32) {
        0 => LAST_PLACE - length + random.below(7) - 3,
        1 => random.word(),
        _ => sound_base(random, length),
    }
}

/// The area's own registry, now and then any number.
fn any_registry(random: &mut Random, own: u64) -> u64 {
    match random.below(64) {
        0 => random.word(),
        _ => own,
    }
}

/// A random area for a registry, every other one damaged.
fn any_octets(random: &mut Random, registry: u8) -> Vec<u8> {
    let mut octets = areas::area(random, registry);
    if random.below(2) > 0 {
        areas::damage(random, &mut octets);
    }
    octets
}

/// A tape for a call that needs so many records, now and then with too little room or a wrong
/// header.
fn any_tape(random: &mut Random, layout: Layout, needed: usize) -> Vec<u64> {
    let more = needed + random.below(5) as usize;
    let room = match random.below(16) {
        0 => 0,
        1 | 2 => needed.saturating_sub(1),
        3..=5 => more,
        _ => needed,
    };
    let earlier = earlier(random, layout);
    let mut tape = tapes::with_room(random, layout, &earlier, room);
    if random.below(64) == 0 {
        tape[random.below(4) as usize] = random.word();
    }
    tape
}

#[cfg(test)]
mod tests {
    use super::*;
    use crate::agree::Call;

    #[test]
    fn random_cases_meet_every_answer() {
        for layout in Layout::ALL {
            let mut comparison = Comparison::new(layout, Random::new(1));
            (0..40_000).for_each(|_| comparison.any_case());
            let tally = comparison.tally;
            assert_eq!(tally.calls(), 40_000);
            assert!(tally.calls_of(Call::Push) > 28_000);
            for call in [Call::Walk, Call::Push] {
                tally.assert_answers(call, &[1, 3, 4], 40);
                tally.assert_answers(call, &[0, 5], 900);
            }
        }
    }

    #[test]
    fn bases_reach_the_limit_and_pass_it() {
        let mut random = Random::new(1);
        let bases: Vec<u64> = (0..2_000).map(|_| any_base(&mut random, 9)).collect();
        for wanted in [0, LAST_PLACE - 9, LAST_PLACE - 8, LAST_PLACE - 12] {
            assert!(bases.contains(&wanted), "{wanted}");
        }
    }

    #[test]
    fn sound_bases_are_not_refused() {
        let mut random = Random::new(1);
        for length in (0..1_000).chain([65_535]) {
            assert!(sound_base(&mut random, length) + length <= LAST_PLACE);
        }
    }

    #[test]
    fn earlier_records_are_few_and_of_every_count() {
        for layout in Layout::ALL {
            let mut random = Random::new(1);
            let mut met = [false; MOST_EARLIER as usize + 1];
            (0..1_000).for_each(|_| met[earlier(&mut random, layout).len()] = true);
            assert_eq!(met, [true; 7]);
        }
    }
}
