//! Going down on words that no call wrote: on thousands of tapes it ends, meets no record twice and
//! gives just the children that the words give it, in both layouts.

mod shared;

use std::ops::Range;

use shared::{in_both_layouts, tape_of};
use wakkemosut::{Layout, Position, Record, Refusal, Registry, Tape, most_records};

/// How many tapes each test goes down on.
const TAPES: usize = 5_000;

/// A source of numbers that are the same in every run (splitmix64).
struct Random(u64);

impl Random {
    /// The next number, under a bound.
    fn below(&mut self, bound: u64) -> u64 {
        self.0 = self.0.wrapping_add(0x9E37_79B9_7F4A_7C15);
        let mixed = (self.0 ^ (self.0 >> 30)).wrapping_mul(0xBF58_476D_1CE4_E5B9);
        let mixed = (mixed ^ (mixed >> 27)).wrapping_mul(0x94D0_49BB_1331_11EB);
        (mixed ^ (mixed >> 31)) % bound
    }

    /// The next one of these.
    fn pick<Item: Copy>(&mut self, items: &[Item]) -> Item {
        items[self.below(items.len() as u64) as usize]
    }

    /// The next position on or near a tape of so many records, or far behind it.
    fn position(&mut self, records: u64) -> u64 {
        match self.below(8) {
            0 => self.pick(&[0, 0xFFFF_FFFE, 0xFFFF_FFFF]),
            _ => self.below(records + 2),
        }
    }

    /// The next word, with a position in its lower half and in one of three one in its upper half.
    fn word(&mut self, records: u64) -> u64 {
        let upper = match self.below(3) {
            0 => self.position(records),
            _ => 0,
        };
        self.position(records) + (upper << 32)
    }

    /// The six words of the next record: most are containers, some are none.
    fn record(&mut self, records: u64) -> [u64; 6] {
        let shape = self.pick(&[0, 6, 7, 7, 7, 8, 8, 8, 9]);
        let (first, end) = (self.position(records), self.position(records));
        [256 * shape, self.below(3), 2, self.below(9), first, end]
    }
}

/// What going down meets: a record at a position, or a refusal.
type Met = Result<u64, Refusal>;

/// Whether six words are a record of [`Random::record`].
fn is_record(words: [u64; 6]) -> bool {
    words[0] <= 256 * 8
}

/// What going down a row of these records is to meet. A container's children are from its first
/// one, or the position behind it, to its children's end, or that of the row; a refusal ends the
/// row.
fn expected(records: &[[u64; 6]], row: Range<u64>, met: &mut Vec<Met>) {
    let mut at = row.start;
    while at < row.end {
        let record = records[at as usize];
        if !is_record(record) {
            met.push(Err(Refusal::NoRecord));
            return;
        }
        met.push(Ok(at));
        let (behind, end) = (at + 1, record[5]);
        at = behind;
        if record[0] >= 256 * 7 {
            expected(records, record[4].max(behind)..end.min(row.end), met);
            at = behind.max(end);
        }
    }
}

/// Goes down the records of a row, and asserts of each that it stands behind the one before; so it
/// is met once, and going down ends.
fn go_down<'tape, L: Layout>(
    row: impl Iterator<Item = Result<Record<'tape, L>, Refusal>>,
    met: &mut Vec<Met>,
) {
    for record in row {
        let before = met.iter().rev().find_map(|met| met.ok());
        let position = record.as_ref().map(|record| record.position.0);
        met.push(position.map_err(|refusal| *refusal));
        let Ok(record) = record else { continue };
        assert!(before < Some(record.position.0), "{met:?}");
        go_down(record.children(), met);
    }
}

/// What going down from the top of a tape meets.
fn all_met<L: Layout>(tape: &Tape<'_, L>, from: u64) -> Vec<Met> {
    let mut met = Vec::new();
    go_down(tape.trees_from(Position(from)), &mut met);
    met
}

in_both_layouts! {
    going_down_on_any_records_meets_the_children_that_they_give,
    going_down_from_any_record_stays_behind_it_and_on_the_tape,
    going_down_on_damaged_words_ends,
    going_down_a_long_chain_ends,
}

fn going_down_on_any_records_meets_the_children_that_they_give<L: Layout>() {
    let mut random = Random(1);
    for _ in 0..TAPES {
        let count = 1 + random.below(12);
        let records: Vec<_> = (0..count).map(|_| random.record(count)).collect();
        let mut words = tape_of::<L>(&records);
        let tape = Tape::<L>::in_layout(&mut words);
        for from in 0..=count {
            let mut met = Vec::new();
            expected(&records, from..count, &mut met);
            assert_eq!(all_met(&tape, from), met, "{records:?} from {from}");
        }
    }
}

fn going_down_from_any_record_stays_behind_it_and_on_the_tape<L: Layout>() {
    let mut random = Random(2);
    for _ in 0..TAPES {
        let count = 1 + random.below(12);
        let records: Vec<_> = (0..count).map(|_| random.record(count)).collect();
        let mut words = tape_of::<L>(&records);
        let tape = Tape::<L>::in_layout(&mut words);
        for record in tape.records().flatten() {
            let mut met = Vec::new();
            go_down(record.children(), &mut met);
            let inside = record.position.0 + 1..count.min(record.descendants.end.0);
            assert!(
                met.iter().flatten().all(|at| inside.contains(at)),
                "{met:?}"
            );
        }
    }
}

fn going_down_on_damaged_words_ends<L: Layout>() {
    let area = [
        0x19, 0x09, 0x80, 0x00, 0x01, 0x02, 0x00, 0x00, 0x13, 0x01, 0x05, 0x12,
    ];
    let mut sound = vec![0; Tape::<L>::words_in_layout(most_records(area.len()))];
    let mut tape = Tape::<L>::cleared_in_layout(&mut sound).unwrap();
    tape.push(Registry::RouterCapability, 100, &area).unwrap();
    let (count, used) = (tape.mark().0, Tape::<L>::words_in_layout(tape.len()) as u64);
    let mut random = Random(3);
    for _ in 0..TAPES {
        let mut words = sound.clone();
        for _ in 0..1 + random.below(4) {
            words[random.below(used) as usize] = random.word(count);
        }
        let tape = Tape::<L>::in_layout(&mut words);
        let met = all_met(&tape, 0);
        assert!(met.len() <= tape.len(), "{met:?}");
        assert!(
            met.iter().flatten().all(|at| *at < tape.mark().0),
            "{met:?}"
        );
    }
}

fn going_down_a_long_chain_ends<L: Layout>() {
    let chain: Vec<_> = (0..200).map(|at| [256 * 7, 0, 0, 0, at, 200]).collect();
    let mut words = tape_of::<L>(&chain);
    let met = all_met(&Tape::<L>::in_layout(&mut words), 0);
    assert!(met.into_iter().eq((0..200).map(Ok)));
}
