//! What an area says, as a listing for people: a line for each entry, its further fields under it.

mod bandwidth;
mod entry;
mod flags;
mod hint;
mod layout;
mod least;
mod value;

use wakkemosut::Refusal;

use crate::area::Pushed;
use crate::quote::{counted, octets};
use crate::registries;
use crate::style::Style;
use entry::Lister;
use layout::{Head, Layout, Row};
pub use value::hex;

/// The listing of an area.
pub fn text(pushed: &Pushed<'_>, style: Style) -> Result<String, Refusal> {
    let entries = entry::entries(pushed)?;
    let mut text = format!("{}\n", head(pushed, entries.len()));
    if pushed.octets.is_empty() {
        return Ok(text);
    }
    let mut lister = Lister::new(pushed);
    for entry in &entries {
        lister.add_entry(entry, 0)?;
    }
    let mut rows = lister.rows;
    rows.extend(left_over(pushed));
    text.push('\n');
    text.push_str(&Layout::of(&rows).text(&rows, style));
    let kinds = entries.iter().map(|entry| entry.kind);
    let hints = [
        hint::of_registry(pushed.registry, kinds),
        hint::of_base(pushed)?,
    ];
    for hint in hints.iter().flatten() {
        text.push_str(&format!("\n{}\n", style.warning(hint)));
    }
    Ok(text)
}

/// The first line: what was read, and how far.
fn head(pushed: &Pushed<'_>, entries: usize) -> String {
    let (registry, base) = (registries::word(pushed.registry), pushed.base);
    let length = pushed.octets.len();
    let covered = pushed.laid.covered as usize;
    if length == 0 {
        return format!("{registry}, an empty area at {base}");
    }
    let entries = counted(entries, "entry", "entries");
    let head = format!("{registry}, {} from {base} on: {entries}", octets(length));
    match length - covered {
        0 => head,
        left if covered == 0 => format!("{head}, {} left over", octets(left)),
        left => format!("{head} in {}, {} left over", octets(covered), octets(left)),
    }
}

/// The rows of the octets after the last complete entry, if there are any: the octets, and why they
/// are no entry.
fn left_over(pushed: &Pushed<'_>) -> Vec<Row> {
    let covered = pushed.laid.covered;
    let (why, left) = match pushed.octets.get(covered as usize..) {
        None | Some([]) => return Vec::new(),
        Some(left @ [kind, length, value @ ..]) => {
            let (says, there) = (octets((*length).into()), are_there(value.len()));
            (format!("type {kind} says {says} of value, {there}"), left)
        }
        Some(left) => (
            "one octet is no entry: a type and a length are two".into(),
            left,
        ),
    };
    let octets_left = Head::LeftOver {
        place: pushed.base + covered,
        text: format!("{} left over", octets(left.len())),
    };
    vec![
        Row::new(0, octets_left, hex(left, " ")),
        Row::new(0, Head::Note(why), String::new()),
    ]
}

/// So many are there.
fn are_there(count: usize) -> String {
    match count {
        0 => "none is there".into(),
        1 => "1 is there".into(),
        _ => format!("{count} are there"),
    }
}
