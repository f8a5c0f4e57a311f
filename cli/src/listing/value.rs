//! The values of fields, as texts.

use wakkemosut::{Label, Record, Refusal, Value};

use crate::area::Pushed;
use crate::listing::entry::Entry;
use crate::listing::{bandwidth, flags};
use crate::quote::{counted, octets};

/// The greatest delay and delay variation, which stand for themselves and all above (RFC 8570).
const GREATEST_DELAY: u64 = 16_777_215;

/// The loss that stands for itself and all above (RFC 8570).
const GREATEST_LOSS: u64 = 16_777_214;

/// Fields that say something only together, and so stand in one line: each with its word there.
const TOGETHER: [(Label, &str); 8] = [
    (Label::LocalIdentifier, "local"),
    (Label::RemoteIdentifier, "remote"),
    (Label::MinDelay, "min"),
    (Label::MaxDelay, "max"),
    (Label::LocatorBlockLength, "block"),
    (Label::LocatorNodeLength, "node"),
    (Label::FunctionLength, "function"),
    (Label::ArgumentLength, "argument"),
];

/// The value of a field of an entry.
pub fn text(pushed: &Pushed<'_>, entry: &Entry<'_>, field: &Record<'_>) -> Result<String, Refusal> {
    Ok(match field.value_in(pushed.octets, pushed.base) {
        Some(Value::Number(_)) if word_of(field.label).is_some() => together(entry),
        Some(Value::Number(number)) if field.label == Label::Sid => sid(number, field),
        Some(Value::Number(number)) => number_text(entry, field.label, number),
        Some(Value::Ipv4(address)) => address.to_string(),
        Some(Value::Ipv6(address)) => address.to_string(),
        Some(Value::Bytes(bytes)) => octets_text(field.label, bytes),
        Some(Value::Container) => container_text(field)?,
        _ => "cannot be shown".into(),
    })
}

/// Octets in hex, with a text between them.
pub fn hex(octets: &[u8], between: &str) -> String {
    let octets: Vec<String> = octets.iter().map(|octet| format!("{octet:02X}")).collect();
    octets.join(between)
}

/// Whether a field is said in the line of its entry, beside the one that stands there: together with
/// it, or as a letter of flags.
pub fn is_in_line(label: Label) -> bool {
    let is_letter = matches!(label, Label::FlagX | Label::FlagR | Label::FlagN);
    is_letter || word_of(label).is_some()
}

/// The word of a field that stands in one line with others.
fn word_of(label: Label) -> Option<&'static str> {
    let found = TOGETHER.iter().find(|(together, _)| *together == label);
    found.map(|(_, word)| *word)
}

/// A number, as what its label says that it is.
fn number_text(entry: &Entry<'_>, label: Label, number: u64) -> String {
    let flags = |bits| flags::text(entry.registry, entry.kind, number, bits);
    match label {
        Label::Flags => flags(8),
        Label::Srv6Flags => flags(16),
        Label::AdminGroup => groups(number),
        Label::MaxBandwidth
        | Label::MaxReservableBandwidth
        | Label::Bandwidth
        | Label::BandwidthElement => bandwidth::text(number as u32),
        Label::Delay | Label::MinDelay | Label::MaxDelay => delay(number),
        Label::DelayVariation => variation(number),
        Label::LinkLoss => loss(number),
        Label::Anomalous => yes_or_no(number).into(),
        _ => number.to_string(),
    }
}

/// The administrative groups that are set; the least bit is group 0 (RFC 5305, section 3.1).
fn groups(bits: u64) -> String {
    let set = (0..u32::BITS).filter(|group| bits >> group & 1 == 1);
    let set: Vec<String> = set.map(|group| group.to_string()).collect();
    let groups = match set.len() {
        0 => "no group".into(),
        1 => format!("group {}", set.join(", ")),
        _ => format!("groups {}", set.join(", ")),
    };
    format!("0x{bits:08X} ({groups})")
}

/// A delay or delay variation.
fn delay(microseconds: u64) -> String {
    let more = or_more(microseconds >= GREATEST_DELAY);
    format!("{microseconds} µs{more}")
}

/// A delay variation; 0 says that there is none (RFC 8570, section 4.3).
fn variation(microseconds: u64) -> String {
    match microseconds {
        0 => "0 µs (not measured)".into(),
        _ => delay(microseconds),
    }
}

/// A SID, and how many octets say it: what it is, a label or an index, is not decided here.
fn sid(number: u64, field: &Record<'_>) -> String {
    let length = field.octets.end.saturating_sub(field.octets.start);
    format!("{number} ({})", octets(length as usize))
}

/// A loss, counted in units of 0.000003 %.
fn loss(units: u64) -> String {
    let millionths = units * 3;
    let percent = format!("{}.{:06}", millionths / 1_000_000, millionths % 1_000_000);
    let percent = percent.trim_end_matches('0').trim_end_matches('.');
    let more = or_more(units >= GREATEST_LOSS);
    format!("{percent} %{more}")
}

/// What is said of a number that stands for itself and all above.
fn or_more(is_greatest: bool) -> &'static str {
    if is_greatest { " or more" } else { "" }
}

/// A single bit.
fn yes_or_no(bit: u64) -> &'static str {
    match bit {
        0 => "no",
        _ => "yes",
    }
}

/// The fields of an entry that stand in one line, each behind its word. The lengths of an SRv6 SID's
/// parts have their unit once, behind the last.
fn together(entry: &Entry<'_>) -> String {
    let part = |field: &Record<'_>| {
        let number = number_text(entry, field.label, field.number);
        Some(format!("{} {number}", word_of(field.label)?))
    };
    let parts: Vec<String> = entry.fields.iter().filter_map(part).collect();
    let is_length = |field: &Record<'_>| field.label == Label::ArgumentLength;
    let unit = if entry.fields.iter().any(is_length) {
        " bits"
    } else {
        ""
    };
    parts.join(", ") + unit
}

/// Octets, as what their label says that they are.
fn octets_text(label: Label, octets: &[u8]) -> String {
    match (label, octets) {
        (Label::NeighborSystemId, [a, b, c, d, e, f]) => {
            format!("{a:02x}{b:02x}.{c:02x}{d:02x}.{e:02x}{f:02x}")
        }
        (_, []) => "no octets".into(),
        _ => hex(octets, " "),
    }
}

/// What a container holds: its numbers, the numbers of its parts, or how many others it has.
fn container_text(container: &Record<'_>) -> Result<String, Refusal> {
    let children = container.children().collect::<Result<Vec<_>, _>>()?;
    let count = children.len();
    Ok(match container.label {
        Label::Tags | Label::Algorithms if count > 0 => {
            let numbers = children.iter().map(|child| child.number.to_string());
            numbers.collect::<Vec<_>>().join(", ")
        }
        Label::Tags => counted(count, "tag", "tags"),
        Label::Algorithms => counted(count, "algorithm", "algorithms"),
        Label::Ranges => counted(count, "range", "ranges"),
        Label::Msds => counted(count, "MSD", "MSDs"),
        Label::UnreservedBandwidth => counted(count, "priority", "priorities"),
        _ => parts(&children),
    })
}

/// The parts of a range or a maximum SID depth, each with what it is.
fn parts(children: &[Record<'_>]) -> String {
    let part = |child: &Record<'_>| {
        let name = match child.label {
            Label::RangeSize => "size",
            Label::RangeSid => return format!("SID {}", sid(child.number, child)),
            Label::MsdType => "type",
            Label::MsdValue => "value",
            label => label.name(),
        };
        format!("{name} {}", child.number)
    };
    children.iter().map(part).collect::<Vec<_>>().join(", ")
}

#[cfg(test)]
mod tests {
    use super::*;

    #[test]
    fn octets_are_in_hex() {
        assert_eq!(hex(&[0x06, 0x04, 0x0A, 0x00], " "), "06 04 0A 00");
        assert_eq!(hex(&[0xFF, 0x00], ""), "FF00");
        assert_eq!(hex(&[], " "), "");
    }

    #[test]
    fn groups_are_counted_from_the_least_bit() {
        assert_eq!(groups(0), "0x00000000 (no group)");
        assert_eq!(groups(1), "0x00000001 (group 0)");
        assert_eq!(groups(0x8000_0005), "0x80000005 (groups 0, 2, 31)");
    }

    #[test]
    fn a_variation_of_0_is_none() {
        assert_eq!(variation(0), "0 µs (not measured)");
        assert_eq!(variation(1), "1 µs");
        assert_eq!(variation(16_777_215), "16777215 µs or more");
    }

    #[test]
    fn delays_are_in_microseconds() {
        assert_eq!(delay(0), "0 µs");
        assert_eq!(delay(1000), "1000 µs");
        assert_eq!(delay(16_777_214), "16777214 µs");
        assert_eq!(delay(16_777_215), "16777215 µs or more");
    }

    #[test]
    fn losses_are_exact() {
        for (units, expected) in [
            (0, "0 %"),
            (1, "0.000003 %"),
            (100, "0.0003 %"),
            (333_333, "0.999999 %"),
            (1_000_000, "3 %"),
            (10_000_000, "30 %"),
            (16_777_213, "50.331639 %"),
            (16_777_214, "50.331642 % or more"),
            (16_777_215, "50.331645 % or more"),
        ] {
            assert_eq!(loss(units), expected);
        }
    }

    #[test]
    fn a_system_id_has_its_points() {
        let octets = [0x00, 0x10, 0x00, 0xAB, 0x00, 0x01];
        assert_eq!(
            octets_text(Label::NeighborSystemId, &octets),
            "0010.00ab.0001"
        );
        assert_eq!(
            octets_text(Label::NeighborSystemId, &octets[1..]),
            "10 00 AB 00 01"
        );
        assert_eq!(octets_text(Label::Value, &octets), "00 10 00 AB 00 01");
        assert_eq!(octets_text(Label::Value, &[]), "no octets");
    }
}
