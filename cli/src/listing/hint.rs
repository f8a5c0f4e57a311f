//! Hints where something else may have been meant: another registry, or no base.

use std::collections::BTreeSet;

use wakkemosut::{LONGEST_AREA, Label, Refusal, Registry, Tape, most_records};

use crate::area::Pushed;
use crate::listing::entry::name_of;
use crate::octets;
use crate::registries;

/// What to say where a registry knows none of an area's types, and which registries know all. A
/// registry that knows no types at all cannot be wrong in this way.
pub fn of_registry(registry: Registry, kinds: impl Iterator<Item = u8>) -> Option<String> {
    let kinds: BTreeSet<u8> = kinds.collect();
    let knows = |registry, kind: &u8| name_of(registry, *kind).is_some();
    let has_names = (0..=u8::MAX).any(|kind| knows(registry, &kind));
    if kinds.is_empty() || !has_names || kinds.iter().any(|kind| knows(registry, kind)) {
        return None;
    }
    let all = Registry::ALL.iter().copied();
    let knowing = all.filter(|other| kinds.iter().all(|kind| knows(*other, kind)));
    let knowing: Vec<String> = knowing.map(registries::word).collect();
    let known = match &knowing[..] {
        [] => String::new(),
        words => format!(" All are known in {}.", registries::listed(words)),
    };
    let here = registries::word(registry);
    Some(format!(
        "No type here is known in {here}: wrong registry?{known}"
    ))
}

/// What to say where the word for the base may have been the area's first octets: all types are known
/// and nothing is left over with these octets in front, and it is not so without them.
pub fn of_base(pushed: &Pushed<'_>) -> Result<Option<String>, Refusal> {
    let Some((word, front)) = pushed.word_before.and_then(as_octets) else {
        return Ok(None);
    };
    let longer = [&front, pushed.octets].concat();
    let is_meant = !makes_sense(pushed.registry, pushed.octets)?
        && longer.len() <= LONGEST_AREA
        && makes_sense(pushed.registry, &longer)?;
    Ok(is_meant.then(|| {
        format!(
            "{word} was taken for the base. If it begins the octets, the base is missing: \
             write 0 before it."
        )
    }))
}

/// The octets that a word of the base would be, if its digits are whole octets.
fn as_octets(word: &str) -> Option<(&str, Vec<u8>)> {
    let octets = octets::read(word, u64::MAX).ok()?;
    Some((word, octets))
}

/// Whether all of an area is entries of types with a name.
fn makes_sense(registry: Registry, area: &[u8]) -> Result<bool, Refusal> {
    let mut words = vec![0; Tape::words_for(most_records(area.len()))];
    let mut tape = Tape::cleared(&mut words)?;
    let is_whole = tape.walk(registry, 0, area)?.covered == area.len() as u64;
    let kinds = tape
        .records()
        .flatten()
        .filter(|record| (record.label, record.registry) == (Label::Type, registry));
    let mut kinds = kinds.map(|kind| kind.number as u8);
    Ok(is_whole && kinds.all(|kind| name_of(registry, kind).is_some()))
}

#[cfg(test)]
mod tests {
    use super::*;

    /// The hint for an area of these types.
    fn hint(registry: Registry, kinds: &[u8]) -> Option<String> {
        of_registry(registry, kinds.iter().copied())
    }

    #[test]
    fn a_registry_that_knows_no_type_may_be_wrong() {
        // 22 has a name among neighbors and router capabilities, 250 nowhere.
        let expected = "No type here is known in prefix: wrong registry? \
                        All are known in neighbor and router-capability.";
        assert_eq!(hint(Registry::Prefix, &[22]), Some(expected.into()));
        let none = "No type here is known in srv6-sid: wrong registry?";
        assert_eq!(hint(Registry::Srv6Sid, &[22, 250]), Some(none.into()));
        assert_eq!(hint(Registry::Srv6Sid, &[250, 250]), Some(none.into()));
    }

    #[test]
    fn a_registry_that_knows_a_type_is_not_doubted() {
        assert_eq!(hint(Registry::Prefix, &[22, 1, 250]), None);
        assert_eq!(hint(Registry::Prefix, &[]), None);
        assert_eq!(hint(Registry::Unregistered, &[1, 22]), None);
    }
}
