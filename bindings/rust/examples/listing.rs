//! Shows an area: goes down its trees, and prints each record with its octets and its value.

use wakkemosut::{Position, Record, Refusal, Registry, Tape, Trees, Value, most_records};

/// A neighbor's area: a metric of 10, the interface address 192.0.2.1, an entry of a type that has
/// no meaning, and an octet of one that is cut off.
const AREA: [u8; 16] = [
    0x12, 0x03, 0x00, 0x00, 0x0A, 0x06, 0x04, 0xC0, 0x00, 0x02, 0x01, 0xFF, 0x02, 0xBE, 0xEF, 0x12,
];

/// The place of its first octet.
const BASE: u64 = 100;

fn main() -> Result<(), Refusal> {
    let mut words = vec![0; Tape::words_for(most_records(AREA.len()))];
    let mut tape = Tape::cleared(&mut words)?;
    let laid = tape.push(Registry::Neighbor, BASE, &AREA)?;
    println!("{} octets covered, {} records", laid.covered, laid.written);
    show(tape.trees_from(Position(0)), 0)
}

/// Prints the records of a row, and below each what is inside it, indented by so many columns.
fn show(row: Trees<'_>, indent: usize) -> Result<(), Refusal> {
    for record in row {
        let record = record?;
        println!("{:indent$}{}", "", line(&record, 34 - indent));
        show(record.children(), indent + 2)?;
    }
    Ok(())
}

/// The label of a record in so many columns, its octets, and its value if it has one of its own.
fn line(record: &Record<'_>, columns: usize) -> String {
    let octets = &record.octets;
    let line = format!("{:columns$}{}-{}", record.label, octets.start, octets.end);
    match record.value_in(&AREA, BASE) {
        Some(Value::Number(number)) => format!("{line}  {number}"),
        Some(Value::Ipv4(address)) => format!("{line}  {address}"),
        Some(Value::Ipv6(address)) => format!("{line}  {address}"),
        Some(Value::Bytes(octets)) => format!("{line}  {octets:02X?}"),
        _ => line,
    }
}
