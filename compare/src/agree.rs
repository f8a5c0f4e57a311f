//! The calls on a tape, the proved library against the model and the oracle, counted.

use std::collections::BTreeMap;
use std::fmt::Arguments;
use std::hint::black_box;

use crate::brief::Brief;
use crate::layout::Layout;
use crate::lent::Lent;
use crate::model::{self, After};
use crate::native::{self, Area, Outcome, Record};
use crate::random::{Random, seed};
use crate::shown::Shown;
use crate::{summary, tapes};

/// A call on a tape.
#[derive(Clone, Copy, Debug, PartialEq, Eq, PartialOrd, Ord)]
pub enum Call {
    /// Clear.
    Clear,
    /// Cut back.
    CutBack,
    /// Read.
    Read,
    /// The nest test, whose answers count as 1 for yes and 0 for no.
    NestTest,
    /// Walk.
    Walk,
    /// Push.
    Push,
}

/// How often each call on tapes of one layout gave each answer, in the library as in the model.
#[derive(Debug)]
pub struct Tally {
    layout: Layout,
    counts: BTreeMap<(Call, u64), u64>,
}

impl Tally {
    /// A tally of no call yet.
    pub fn of(layout: Layout) -> Self {
        let counts = BTreeMap::new();
        Self { layout, counts }
    }

    /// A tally of no call yet for each layout.
    pub fn in_each_layout() -> [Self; 2] {
        Layout::ALL.map(Self::of)
    }

    /// The layout of the tapes.
    pub fn layout(&self) -> Layout {
        self.layout
    }

    /// Compares a clear.
    pub fn clear(&mut self, tape: &[u64]) {
        let layout = self.layout;
        let name = format_args!("{layout} clear of {}", Brief(tape));
        let expected = model::clear(layout, tape);
        let answer = assert_change(name, layout, tape, &expected, native::clear);
        self.add(Call::Clear, answer);
    }

    /// Compares a cut back to a mark.
    pub fn cut_back(&mut self, tape: &[u64], mark: u64) {
        let layout = self.layout;
        let name = format_args!("{layout} cut back to {mark} of {}", Brief(tape));
        let expected = model::cut_back(layout, tape, mark);
        let call = |layout, lent: &mut [u64]| native::cut_back(layout, lent, mark);
        let answer = assert_change(name, layout, tape, &expected, call);
        self.add(Call::CutBack, answer);
    }

    /// Compares a read of one position.
    pub fn read(&mut self, tape: &[u64], at: u64) {
        let layout = self.layout;
        let name = format_args!("{layout} read at {at} of {}", Brief(tape));
        let given = lend(name, tape, tape, |lent| native::read(layout, lent, at));
        assert_eq!(given, model::read(layout, tape, at), "{name}");
        self.add(Call::Read, given.1.answer);
    }

    /// Compares the nest test.
    pub fn nest_test(&mut self, tape: &[u64]) {
        let layout = self.layout;
        let name = format_args!("{layout} nest test of {}", Brief(tape));
        let given = lend(name, tape, tape, |lent| native::nest_test(layout, lent));
        assert_eq!(given, model::nest_test(layout, tape), "{name}");
        self.add(Call::NestTest, given.into());
    }

    /// Compares every call that takes no area, with each of the arguments where it takes one.
    pub fn every_call(&mut self, tape: &[u64], arguments: &[u64]) {
        self.clear(tape);
        self.nest_test(tape);
        for argument in arguments {
            self.cut_back(tape, *argument);
            self.read(tape, *argument);
        }
    }

    /// Compares a walk.
    pub fn walk(&mut self, shown: &Shown<'_>, tape: &[u64]) {
        let layout = self.layout;
        let name = format_args!("{layout} walk of {} onto {}", shown.area, Brief(tape));
        let expected = shown.walk(layout, tape);
        let answer = assert_append(name, layout, native::walk, shown.area, tape, &expected);
        self.add(Call::Walk, answer);
    }

    /// Compares a push.
    pub fn push(&mut self, shown: &Shown<'_>, tape: &[u64]) {
        let layout = self.layout;
        let name = format_args!("{layout} push of {} onto {}", shown.area, Brief(tape));
        let expected = shown.push(layout, tape);
        let answer = assert_append(name, layout, native::push, shown.area, tape, &expected);
        self.add(Call::Push, answer);
    }

    /// Compares walks and pushes behind these records, with room for none, for one record too
    /// few, for exactly enough and for more, and random words in it.
    pub fn every_room(&mut self, random: &mut Random, shown: &Shown<'_>, earlier: &[Record]) {
        let layout = self.layout;
        let mut tape = |room| tapes::with_room(random, layout, earlier, room);
        for room in rooms(shown.needed_by_walk()) {
            self.walk(shown, &tape(room));
        }
        for room in rooms(shown.needed_by_push()) {
            self.push(shown, &tape(room));
        }
    }

    /// Prints the counts, asserts how many calls were compared, and adds them to the summary.
    pub fn assert_calls(&self, least: u64) {
        println!("{}: {} calls: {:?}", self.layout, self.calls(), self.counts);
        assert!(self.calls() >= least, "{} calls", self.calls());
        summary::add(seed(), self.calls(), self.calls_of(Call::Push));
    }

    /// Asserts that a call gave each of these answers, and how often.
    pub fn assert_answers(&self, call: Call, answers: &[u64], least: u64) {
        for answer in answers {
            let count = self.counts.get(&(call, *answer)).copied().unwrap_or(0);
            let layout = self.layout;
            assert!(
                count >= least,
                "{layout} {call:?} gave {answer} {count} times"
            );
        }
    }

    /// The number of calls compared.
    pub fn calls(&self) -> u64 {
        self.counts.values().sum()
    }

    /// How often one call was compared.
    pub fn calls_of(&self, call: Call) -> u64 {
        let counts = self.counts.iter();
        counts.filter(|one| one.0.0 == call).map(|one| one.1).sum()
    }

    /// Counts one call.
    pub fn add(&mut self, call: Call, answer: u64) {
        *self.counts.entry((call, answer)).or_insert(0) += 1;
    }
}

/// Rooms at which the answer to a call that needs so many records may change, and a larger one.
fn rooms(needed: usize) -> Vec<usize> {
    let mut rooms = vec![0, needed.saturating_sub(1), needed, needed + 2];
    rooms.dedup();
    rooms
}

/// Asserts what a walk or a push gives and leaves, that the area stays, and that a nest stays one.
/// Gives the answer.
fn assert_append(
    name: Arguments<'_>,
    layout: Layout,
    call: fn(Layout, Area<'_>, &mut [u64]) -> Outcome,
    area: Area<'_>,
    tape: &[u64],
    expected: &After,
) -> u64 {
    let mut octets = Lent::around(area.octets);
    let before = octets.clone();
    let answer = assert_change(name, layout, tape, expected, |layout, lent| {
        let octets = octets.middle();
        call(layout, Area { octets, ..area }, lent)
    });
    // The compiler may take it that lent octets stay; here they are looked at.
    let octets = black_box(octets);
    assert_eq!(octets.difference(&before), None, "{name}");
    answer
}

/// Asserts what a call that may write gives and leaves, and that a nest stays
/// one. Gives the answer.
fn assert_change(
    name: Arguments<'_>,
    layout: Layout,
    tape: &[u64],
    expected: &After,
    call: impl FnOnce(Layout, &mut [u64]) -> Outcome,
) -> u64 {
    let given = lend(name, tape, &expected.tape, |lent| call(layout, lent));
    assert_eq!(given, expected.outcome, "{name}");
    let was_a_nest = native::nest_test(layout, tape);
    let is_a_nest = native::nest_test(layout, &expected.tape);
    assert!(is_a_nest || !was_a_nest, "{name}");
    given.answer
}

/// Lends a tape to a call, and asserts every word that it leaves on the tape
/// and beside it. Gives what the call gives.
fn lend<Given>(
    name: Arguments<'_>,
    tape: &[u64],
    left: &[u64],
    call: impl FnOnce(&mut [u64]) -> Given,
) -> Given {
    let mut lent = Lent::around(tape);
    let mut wanted = lent.clone();
    wanted.middle().copy_from_slice(left);
    let given = call(lent.middle());
    assert_eq!(lent.difference(&wanted), None, "{name}");
    given
}

#[cfg(test)]
mod tests;
