//! What the compiler says to callers: a match must leave room for cases that come later, and a
//! result that nobody looks at is a mistake. Either would not compile here if it were not so.

// An arm for the rest would be unreachable if there could be no other case.
#![deny(unreachable_patterns)]
// A statement would not be warned of, though it is expected to be.
#![deny(unfulfilled_lint_expectations)]

use wakkemosut::{Label, Position, Refusal, Registry, Shape, Tape, Value, most_records};

/// Expects the compiler to warn that each of these is not looked at.
macro_rules! to_be_looked_at {
    ($($call:expr;)*) => {
        $(#[expect(unused_must_use)] { $call; })*
    };
}

#[test]
fn a_registry_may_come() {
    let level = |registry| match registry {
        Registry::Neighbor | Registry::Prefix => "outer",
        Registry::RouterCapability | Registry::Binding => "outer",
        Registry::Srv6Sid | Registry::Unregistered => "nested",
        _ => "not known yet",
    };
    assert_eq!(level(Registry::Binding), "outer");
}

#[test]
fn a_shape_may_come() {
    let bits = |shape| match shape {
        Shape::U8 => 8,
        Shape::U16 => 16,
        Shape::U32 | Shape::Ipv4 => 32,
        Shape::U64 => 64,
        Shape::Ipv6 => 128,
        Shape::Bytes | Shape::Array | Shape::Object => 0,
        _ => 0,
    };
    assert_eq!(bits(Shape::Ipv4), 32);
}

#[test]
fn a_refusal_may_come() {
    let more = |refusal| match refusal {
        Refusal::NoRoom { needed } => needed,
        Refusal::NoRegistry | Refusal::AreaTooLong | Refusal::BaseTooHigh | Refusal::NoTape => 0,
        Refusal::PastCount | Refusal::CutsContainer | Refusal::NoRecord | Refusal::NameTooLong => 0,
        _ => 0,
    };
    assert_eq!(more(Refusal::NoRoom { needed: 7 }), 7);
}

#[test]
fn a_kind_of_value_may_come() {
    let octets = |value| match value {
        Value::Number(_) | Value::Container => 0,
        Value::Ipv4(_) => 4,
        Value::Ipv6(_) => 16,
        Value::Bytes(octets) => octets.len(),
        _ => 0,
    };
    assert_eq!(octets(Value::Bytes(&[1, 2])), 2);
}

#[test]
fn what_a_tape_and_its_records_say_is_to_be_looked_at() {
    let area = [1, 3, 0, 0, 7];
    let mut words = [0; Tape::words_for(5)];
    let mut tape = Tape::cleared(&mut words).unwrap();
    tape.push(Registry::Binding, 0, &area).unwrap();
    let array = tape.read(Position(0)).unwrap();
    to_be_looked_at! {
        tape.mark();
        tape.len();
        tape.is_empty();
        tape.nests();
        tape.records();
        tape.trees_from(Position(0));
        tape.read(Position(0));
        tape.words();
        array.children();
        array.words();
        array.is_container();
        array.octets_in(&area, 0);
        array.value_in(&area, 0);
    }
    assert_eq!(tape.len(), 5);
}

#[test]
fn what_is_reckoned_is_to_be_looked_at() {
    to_be_looked_at! {
        most_records(5);
        Tape::words_for(5);
        Tape::slim_words_for(5);
        Tape::over(&mut []);
        Tape::slim_over(&mut []);
        Label::of(5);
        Label::Raw.number();
        Label::Raw.name();
        Refusal::NoTape.number();
    }
    assert_eq!(Label::of(3), Some(Label::Raw));
}
