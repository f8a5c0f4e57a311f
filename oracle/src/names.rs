//! The names that the module's descriptors give.

use std::fmt::Write;

use crate::records::pushed;
use crate::registry::LAST_REGISTRY;

/// The name of a type; the registry must be 0 to 5.
pub fn name(registry: u8, t: u8) -> Option<&'static str> {
    let entry = [t, 0];
    let buffer = pushed(registry, 0, &entry);
    let fields = buffer.fields();
    let field = fields.iter().find(|field| field.name() == "type")?;
    (field.descriptor.display_fn?)(&field.value, fields)
}

/// All names, a line each: registry, type, name.
pub fn listing() -> String {
    let mut lines = String::new();
    for registry in 0..=LAST_REGISTRY {
        for t in 0..=u8::MAX {
            if let Some(name) = name(registry, t) {
                writeln!(lines, "{registry} {t} {name}").expect("a string takes every line");
            }
        }
    }
    lines
}

#[cfg(test)]
mod tests {
    use super::*;

    #[test]
    fn names_are_those_of_their_registry() {
        assert_eq!(name(0, 3), Some("Administrative group (color)"));
        assert_eq!(name(1, 3), Some("Prefix Segment Identifier"));
        assert_eq!(name(2, 3), Some("TE-MESH-GROUP TLV (IPv4)"));
        assert_eq!(name(3, 3), Some("Prefix Segment Identifier"));
        assert_eq!(name(4, 3), None);
        assert_eq!(name(4, 1), Some("SRv6 SID Structure"));
        assert_eq!(name(5, 1), None);
    }
}
