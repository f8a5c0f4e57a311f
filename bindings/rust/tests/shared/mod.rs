//! What tests over both layouts share.

use wakkemosut::{Layout, Tape};

/// Makes two tests of each of these functions, one for each layout.
macro_rules! in_both_layouts {
    ($($test:ident,)*) => {
        mod usual {
            $(#[test] fn $test() { super::$test::<wakkemosut::Usual>(); })*
        }

        mod slim {
            $(#[test] fn $test() { super::$test::<wakkemosut::Slim>(); })*
        }
    };
}

pub(crate) use in_both_layouts;

/// The words of a tape with these records, each by its six words, and no more room. Not every test
/// makes one.
#[allow(dead_code)]
pub fn tape_of<L: Layout>(records: &[[u64; 6]]) -> Vec<u64> {
    let mut words = vec![0; Tape::<L>::words_in_layout(records.len())];
    words[..4].copy_from_slice(&[records.len() as u64, 4, L::RECORD_WORDS as u64, 0]);
    for (at, record) in records.iter().enumerate() {
        put::<L>(&mut words, at, *record);
    }
    words
}

/// Puts a record with these six words on a tape.
pub fn put<L: Layout>(words: &mut [u64], at: usize, record: [u64; 6]) {
    let first = Tape::<L>::words_in_layout(at);
    words[first..first + L::RECORD_WORDS].copy_from_slice(&on_tape::<L>(record));
}

/// The words that a record with these six words has on a tape, by documents 01 and 02.
fn on_tape<L: Layout>(record: [u64; 6]) -> Vec<u64> {
    let [kind, start, end, number, first_child, children_end] = record;
    let pair = |low: u64, high: u64| low + 4_294_967_296 * high;
    let (octets, children) = (pair(start, end), pair(first_child, children_end));
    match L::RECORD_WORDS {
        4 => vec![kind, octets, number, children],
        _ => record.to_vec(),
    }
}
