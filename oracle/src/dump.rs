//! The text of document 01's dump program, which takes areas up to 768 octets by document 02's
//! request 09.

use std::fmt::Write;

use crate::batch::PushCase;
use crate::records::{Push, Record, push};
use crate::registry::LAST_REGISTRY;

/// The octets of the longest area that is taken.
const MOST_IN_AREA: usize = 768;

/// What the dump program prints for an input: registry (1 octet), base (4), area.
pub fn dumped(input: &[u8]) -> String {
    match taken(input) {
        Ok(case) => dump(&push(case.registry, case.base, case.area)),
        Err(answer) => format!("{answer} 0 0 0\n"),
    }
}

/// The push that an input asks for, or the answer that refuses it, by document 01's table (10 as
/// document 02 has it) in its order; 10 comes first.
fn taken(input: &[u8]) -> Result<PushCase<'_>, u8> {
    let (&[registry, ref base @ ..], area) = input.split_first_chunk::<5>().ok_or(10)?;
    let base = u32::from_be_bytes(*base);
    if area.len() > MOST_IN_AREA {
        return Err(10);
    }
    if registry > LAST_REGISTRY {
        return Err(1);
    }
    if u64::from(base) + area.len() as u64 > 4_294_967_295 {
        return Err(3);
    }
    Ok(PushCase {
        registry,
        base,
        area,
    })
}

/// What the dump program prints for a push.
pub fn dump(push: &Push) -> String {
    let count = push.records.len();
    let mut text = format!("0 {} {count} {count}\n", push.covered);
    for (position, record) in push.records.iter().enumerate() {
        writeln!(text, "{position} {}", columns(record)).expect("a string takes every line");
    }
    text
}

/// The columns of a record after its position.
pub(crate) fn columns(record: &Record) -> String {
    let kind = format!("{} {} {}", record.label, record.shape, record.registry);
    let range = format!("{} {}", record.first, record.past_last);
    let children = format!("{} {}", record.first_child, record.past_children);
    format!("{kind} {range} {} {children}", record.number)
}
