//! Random tapes, and arguments for the calls on them.

use crate::layout::{HEADER, Layout};
use crate::native::Record;
use crate::random::Random;

/// A random forest of at most so many records, its containers at most so deep.
pub fn forest(random: &mut Random, layout: Layout, most: usize, deep: u64) -> Vec<Record> {
    let mut records = Vec::new();
    let least = random.below(most as u64 + 1) as usize;
    while records.len() < least {
        grow(random, &mut records, most, deep);
    }
    let fitted = records.into_iter().map(|record| layout.fitted(record));
    fitted.collect()
}

/// The record of random words.
pub fn any_record(random: &mut Random, layout: Layout) -> Record {
    let words: Vec<u64> = (0..layout.record_words()).map(|_| random.word()).collect();
    layout.record(&words)
}

/// Leaves that a read gives, as many as asked for.
pub fn leaves(count: u64) -> Vec<Record> {
    (0..count).map(|at| [2, at, at + 1, 9, 0, 0]).collect()
}

/// A tape whose used records are these, with no word after them.
pub fn full(layout: Layout, records: &[Record]) -> Vec<u64> {
    let mut tape = vec![0; HEADER + layout.record_words() * records.len()];
    let (header, places) = tape.split_at_mut(HEADER);
    header.copy_from_slice(&layout.header(records.len() as u64));
    layout.write_all(records.iter().copied(), places);
    tape
}

/// A tape whose used records are these, with random words after them.
pub fn tape(random: &mut Random, layout: Layout, records: &[Record], unused: usize) -> Vec<u64> {
    let mut tape = full(layout, records);
    tape.extend((0..unused).map(|_| random.word()));
    tape
}

/// A tape whose used records are these, with room for so many more and random words in it.
pub fn with_room(random: &mut Random, layout: Layout, records: &[Record], room: usize) -> Vec<u64> {
    let size = layout.record_words();
    let over = random.below(size as u64) as usize;
    tape(random, layout, records, size * room + over)
}

/// A tape of this length whose words are random. Most headers and records are
/// near what they should be.
pub fn noise(random: &mut Random, layout: Layout, length: usize) -> Vec<u64> {
    let mut tape: Vec<u64> = (0..length).map(|_| random.word()).collect();
    let room = layout.room(length) as u64;
    let Some((header, places)) = tape.split_first_chunk_mut::<HEADER>() else {
        return tape;
    };
    if random.below(16) > 0 {
        *header = likely_header(random, layout, room);
    }
    if random.below(4) > 0 {
        let records = (1..).map(|next| layout.fitted(likely_record(random, next, room)));
        layout.write_all(records, places);
    }
    tape
}

/// Arguments of every size, for the calls on a tape.
pub fn arguments(random: &mut Random, layout: Layout, tape: &[u64]) -> Vec<u64> {
    let used = tape.first().copied().unwrap_or(0);
    let mut arguments = vec![0, 1, used, layout.room(tape.len()) as u64];
    arguments.extend([used.wrapping_sub(1), used.wrapping_add(1)]);
    for great in [1 << 32, 1 << 61, 1 << 62, 1 << 63, u64::MAX / 6 + 1] {
        arguments.extend([great, great + random.below(10)]);
    }
    arguments.extend([u64::MAX, random.number(), random.word(), random.below(10)]);
    arguments
}

/// Appends random siblings and what is below them.
fn grow(random: &mut Random, records: &mut Vec<Record>, most: usize, deep: u64) {
    while records.len() < most && random.below(5) > 0 {
        let place = records.len();
        records.push(leaf(random));
        if deep > 0 && random.below(2) > 0 {
            grow(random, records, most, deep - 1);
            let end = records.len() as u64;
            records[place] = container(random, place as u64 + 1, end);
        }
    }
}

/// A leaf of any shape but those of containers.
fn leaf(random: &mut Random) -> Record {
    let over_8 = 9 + random.below(247);
    let shape = random.pick(&[0, 1, 2, 3, 4, 5, 6, 6, 9, 128 + 7, 128 + 8, over_8]);
    record(random, shape, 0, 0)
}

/// A container with these children.
fn container(random: &mut Random, first_child: u64, end: u64) -> Record {
    let shape = random.pick(&[7, 8]);
    record(random, shape, first_child, end)
}

/// A record with this shape and these last two words. The others are random,
/// and every other time such that a read gives it, if its shape is one.
fn record(random: &mut Random, shape: u64, first_child: u64, end: u64) -> Record {
    let number = random.number() >> 16;
    let any = random.pick(&[0, 1, 6, 1 << 16, 1 << 47, number]);
    let mut words = [random.below(256), any, random.word(), random.word()];
    if random.below(2) == 0 {
        words = [57, 6, 9, 9].map(|bound| random.below(bound));
    }
    let [label, above, start, length] = words;
    let kind = label + 256 * shape + 65_536 * above;
    let past = start.wrapping_add(length);
    [kind, start, past, random.word(), first_child, end]
}

/// A header that is often right; the count is often that of the room, or near it.
fn likely_header(random: &mut Random, layout: Layout, room: u64) -> [u64; HEADER] {
    let used = match random.below(8) {
        0 => room.wrapping_sub(1),
        1 => room + 1,
        2 => random.word(),
        3 | 4 => room,
        _ => random.below(room + 1),
    };
    let mut header = layout.header(used);
    if random.below(8) == 0 {
        let place = 1 + random.below(3) as usize;
        header[place] = random.word();
    }
    header
}

/// A record whose words are near what they should be.
fn likely_record(random: &mut Random, next: u64, room: u64) -> Record {
    let label = random.pick(&[0, 4, 47, 55, 56, 57]);
    let shape = random.pick(&[0, 2, 6, 7, 7, 8, 8, 9]);
    let registry = random.pick(&[0, 0, 0, 1, 5, 6]);
    let start = random.below(4);
    let any = random.word();
    let end = random.pick(&[start, start + 1, 2, 3, any]);
    let is_container = shape == 7 || shape == 8;
    let last = random.below(room + 2);
    let children = random.pick(&[(next, next), (next, last), (next, room), (0, last)]);
    let children = if is_container { children } else { (0, 0) };
    let kind = label + 256 * shape + 65_536 * registry;
    [kind, start, end, random.word(), children.0, children.1]
}

#[cfg(test)]
mod tests;
