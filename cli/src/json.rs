//! An area as a JSON object, for programs.

use wakkemosut::{Position, Record, Refusal, Shape, Trees, Value};

use crate::area::Pushed;
use crate::listing::hex;
use crate::registries;

/// The object: registry, base, what the push gave, and the records as trees. All texts in it are
/// plain words, addresses and hex digits, so that none needs an escape.
pub fn text(pushed: &Pushed<'_>) -> Result<String, Refusal> {
    let mut text = format!(
        r#"{{"registry":"{}","base":{},"covered":{},"written":{},"records":"#,
        registries::word(pushed.registry),
        pushed.base,
        pushed.laid.covered,
        pushed.laid.written,
    );
    add_row(&mut text, pushed, pushed.tape.trees_from(Position(0)))?;
    text.push_str("}\n");
    Ok(text)
}

/// Adds records beside each other, as an array.
fn add_row(text: &mut String, pushed: &Pushed<'_>, records: Trees<'_>) -> Result<(), Refusal> {
    text.push('[');
    for (at, record) in records.enumerate() {
        if at > 0 {
            text.push(',');
        }
        add_record(text, pushed, &record?)?;
    }
    text.push(']');
    Ok(())
}

/// Adds a record, as an object.
fn add_record(text: &mut String, pushed: &Pushed<'_>, record: &Record<'_>) -> Result<(), Refusal> {
    text.push_str(&format!(
        r#"{{"position":{},"label":"{}","shape":"{}","registry":"{}","start":{},"end":{}"#,
        record.position.0,
        record.label,
        record.shape,
        registries::word(record.registry),
        record.octets.start,
        record.octets.end,
    ));
    if record.is_container() {
        text.push_str(r#","children":"#);
        add_row(text, pushed, record.children())?;
    } else {
        text.push_str(&value(pushed, record));
    }
    text.push('}');
    Ok(())
}

/// The member that has the value of a record: a number, an address or octets. A number of 64 bits
/// is a text, since many readers of JSON lose digits past 2^53.
fn value(pushed: &Pushed<'_>, record: &Record<'_>) -> String {
    match record.value_in(pushed.octets, pushed.base) {
        Some(Value::Number(number)) if record.shape == Shape::U64 => {
            format!(r#","number":"{number}""#)
        }
        Some(Value::Number(number)) => format!(r#","number":{number}"#),
        Some(Value::Ipv4(address)) => format!(r#","address":"{address}""#),
        Some(Value::Ipv6(address)) => format!(r#","address":"{address}""#),
        Some(Value::Bytes(octets)) => format!(r#","octets":"{}""#, hex(octets, "")),
        _ => String::new(),
    }
}
