//! Many calls in a row on one tape: the proved library against the oracle and the model.

use compare::agree::{Call, Tally};
use compare::areas;
use compare::layout::Layout;
use compare::model;
use compare::native::Area;
use compare::random::Random;
use compare::shown::Shown;
use compare::tapes;

/// The number of tapes.
const TAPES: usize = 20_000;

/// The number of calls that may write on each tape.
const STEPS: usize = 30;

/// The most records that a tape has room for.
const MOST_ROOM: u64 = 100;

/// A tape in use, and what was compared on it.
struct UsedTape {
    tally: Tally,
    random: Random,
    tape: Vec<u64>,
}

impl UsedTape {
    /// A random call that may write; the tape is left as by the model.
    fn step(&mut self) {
        match self.random.below(16) {
            0 => self.clear(),
            1..=3 => self.cut_back(),
            4..=7 => self.walk_or_push(true),
            _ => self.walk_or_push(false),
        }
    }

    /// Clears the tape.
    fn clear(&mut self) {
        self.tally.clear(&self.tape);
        self.tape = model::clear(self.tally.layout(), &self.tape).tape;
    }

    /// Cuts back to a random mark, up to one past the count.
    fn cut_back(&mut self) {
        let mark = self.random.below(self.tape[0] + 2);
        self.tally.cut_back(&self.tape, mark);
        self.tape = model::cut_back(self.tally.layout(), &self.tape, mark).tape;
    }

    /// Walks or pushes a random area.
    fn walk_or_push(&mut self, is_walk: bool) {
        let registry = self.random.below(6);
        let octets = areas::area(&mut self.random, registry as u8);
        let base = self.random.below(1 << 31);
        let shown = Shown::of(Area::new(registry, base, &octets));
        if is_walk {
            self.tally.walk(&shown, &self.tape);
            self.tape = shown.walk(self.tally.layout(), &self.tape).tape;
        } else {
            self.tally.push(&shown, &self.tape);
            self.tape = shown.push(self.tally.layout(), &self.tape).tape;
        }
    }

    /// Starts anew, on a tape of random words that is cleared.
    fn start(&mut self) {
        let layout = self.tally.layout();
        let size = layout.record_words() as u64;
        let words = 4 + size * self.random.below(MOST_ROOM) + self.random.below(size);
        self.tape = tapes::noise(&mut self.random, layout, words as usize);
        self.clear();
    }

    /// Reads every record and the one past the last, and tests the nest, which is one.
    fn look(&mut self) {
        for at in 0..=self.tape[0] {
            self.tally.read(&self.tape, at);
        }
        self.tally.nest_test(&self.tape);
    }
}

/// Compares many calls on many tapes of one layout, one after another.
fn compare_tapes(layout: Layout) {
    let mut used = UsedTape {
        tally: Tally::of(layout),
        random: Random::of_this_run(),
        tape: Vec::new(),
    };
    for _ in 0..TAPES {
        used.start();
        (0..STEPS).for_each(|_| used.step());
        used.look();
    }
    let tally = used.tally;
    tally.assert_calls(1_000_000);
    tally.assert_answers(Call::Push, &[0, 5], 50_000);
    tally.assert_answers(Call::Walk, &[0, 5], 25_000);
    tally.assert_answers(Call::CutBack, &[0, 6, 7], 1_000);
    tally.assert_answers(Call::Read, &[0, 6], 10_000);
    tally.assert_answers(Call::NestTest, &[1], TAPES as u64);
}

#[test]
fn many_calls_on_one_tape_are_those_of_the_rust_and_the_model() {
    compare_tapes(Layout::Usual);
}

#[test]
fn many_calls_on_one_slim_tape_are_those_of_the_rust_and_the_model() {
    compare_tapes(Layout::Slim);
}
