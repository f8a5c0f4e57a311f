//! The two layouts of a tape: the words of a slim one, and what sets the two apart (document 02,
//! request 09).

use wakkemosut::{Layout, Position, Refusal, Registry, Slim, Tape, Usual};

/// A metric of 10.
const METRIC: [u8; 5] = [0x12, 0x03, 0x00, 0x00, 0x0A];

/// An SRv6 capability whose tail is of another registry.
const CAPABILITY: [u8; 5] = [0x19, 0x03, 0x80, 0x00, 0x07];

/// A tape with both, and no more room.
fn pushed<L: Layout>() -> Vec<u64> {
    let mut words = vec![u64::MAX; Tape::<L>::words_in_layout(12)];
    let mut tape = Tape::<L>::cleared_in_layout(&mut words).unwrap();
    tape.push(Registry::Neighbor, 100, &METRIC).unwrap();
    tape.push(Registry::RouterCapability, 200, &CAPABILITY)
        .unwrap();
    words
}

#[test]
fn a_slim_tape_has_the_words_of_document_02() {
    let mut words = [u64::MAX; 30];
    let mut tape = Tape::slim_cleared(&mut words).unwrap();
    tape.push(Registry::Neighbor, 100, &METRIC).unwrap();
    let expected: [[u64; 4]; 6] = [
        [5, 4, 4, 0],
        [0x0704, 0x69_0000_0064, 0, 0x5_0000_0001],
        [0x082F, 0x69_0000_0064, 0, 0x5_0000_0002],
        [0x0000, 0x65_0000_0064, 18, 0],
        [0x0001, 0x66_0000_0065, 3, 0],
        [0x020F, 0x69_0000_0066, 10, 0],
    ];
    assert_eq!(tape.words()[..24], *expected.as_flattened());
    assert_eq!(tape.words()[24..], [u64::MAX; 6]);
}

#[test]
fn the_halves_of_a_slim_word_hold_the_highest_octets() {
    let mut words = [u64::MAX; Tape::slim_words_for(5)];
    let mut tape = Tape::slim_cleared(&mut words).unwrap();
    tape.push(Registry::Neighbor, 0xFFFF_FFFA, &METRIC).unwrap();
    assert_eq!(tape.words()[5], 0xFFFF_FFFF_FFFF_FFFA);
    let array = tape.read(Position(0)).unwrap();
    assert_eq!(array.octets, 0xFFFF_FFFA..0xFFFF_FFFF);
}

#[test]
fn a_slim_tape_has_room_for_as_many_records_in_two_thirds_of_the_words() {
    let words = [0, 1, 5, 152_916].map(Tape::words_for);
    assert_eq!(words, [4, 10, 34, 917_500]);
    let slim = [0, 1, 5, 152_916].map(Tape::slim_words_for);
    assert_eq!(slim, [4, 8, 24, 611_668]);
    assert_eq!(Tape::slim_words_for(usize::MAX), usize::MAX);
}

#[test]
fn records_are_alike_in_both_layouts() {
    let (mut words, mut slim_words) = (pushed::<Usual>(), pushed::<Slim>());
    let (tape, slim) = (Tape::over(&mut words), Tape::slim_over(&mut slim_words));
    assert_eq!((tape.mark(), slim.mark()), (Position(12), Position(12)));
    for at in (0..12).map(Position) {
        let (record, other) = (tape.read(at).unwrap(), slim.read(at).unwrap());
        assert_eq!(record.words(), other.words());
        assert_eq!(record.descendants, other.descendants);
        assert_eq!(format!("{record:?}"), format!("{other:?}"));
    }
}

/// Asserts that the calls of a layout refuse what is a tape of the other one, but for a clear.
fn assert_refuses_the_other<L: Layout, Other: Layout>() {
    let others = pushed::<Other>();
    let mut words = others.clone();
    let mut tape = Tape::<L>::in_layout(&mut words);
    let refused = Some(Refusal::NoTape);
    assert_eq!(tape.walk(Registry::Neighbor, 0, &[]).err(), refused);
    assert_eq!(tape.push(Registry::Neighbor, 0, &[]).err(), refused);
    assert_eq!(tape.cut_back(Position(0)).err(), refused);
    assert_eq!(tape.read(Position(0)).err(), refused);
    assert!(!tape.nests());
    assert_eq!(tape.words(), others);
    assert_eq!(tape.clear(), Ok(()));
    assert_eq!(tape.words()[..4], [0, 4, L::RECORD_WORDS as u64, 0]);
    assert_eq!(tape.words()[4..], others[4..]);
    assert!(tape.nests());
}

#[test]
fn a_tape_of_one_layout_is_refused_by_the_other() {
    assert_refuses_the_other::<Usual, Slim>();
    assert_refuses_the_other::<Slim, Usual>();
}
