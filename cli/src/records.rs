//! Every record of an area in a line.

use wakkemosut::{Position, Record, Refusal, Trees, Value};

use crate::area::Pushed;

/// The column at which octets stand.
const OCTETS_COLUMN: usize = 34;

/// The octets covered and the count of records; then each record, those inside another one further
/// in: its label, its first octet and the one past its last, and its number if it has one.
pub fn text(pushed: &Pushed<'_>) -> Result<String, Refusal> {
    let laid = pushed.laid;
    let mut text = format!(
        "{} octets covered, {} records\n",
        laid.covered, laid.written
    );
    add(&mut text, pushed, pushed.tape.trees_from(Position(0)), 0)?;
    Ok(text)
}

/// Adds the lines of records, and of what is inside them.
fn add(
    text: &mut String,
    pushed: &Pushed<'_>,
    records: Trees<'_>,
    depth: usize,
) -> Result<(), Refusal> {
    for record in records {
        let record = record?;
        text.push_str(&line(pushed, &record, depth));
        add(text, pushed, record.children(), depth + 1)?;
    }
    Ok(())
}

/// The line of a record.
fn line(pushed: &Pushed<'_>, record: &Record<'_>, depth: usize) -> String {
    let indent = 2 * depth;
    let width = OCTETS_COLUMN.saturating_sub(indent);
    let number = match record.value_in(pushed.octets, pushed.base) {
        Some(Value::Number(number)) => format!("  {number}"),
        _ => String::new(),
    };
    let (label, octets) = (record.label, &record.octets);
    let (start, end) = (octets.start, octets.end);
    format!("{:indent$}{label:<width$}{start}-{end}{number}\n", "")
}
