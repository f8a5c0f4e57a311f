//! Registries as people name them.

use wakkemosut::Registry;

/// The word for a registry: its name in small letters, a dash between its words.
pub fn word(registry: Registry) -> String {
    let mut word = String::new();
    for letter in registry.name().chars() {
        if letter.is_ascii_uppercase() && !word.is_empty() {
            word.push('-');
        }
        word.push(letter.to_ascii_lowercase());
    }
    word
}

/// All registries, each with its number.
pub fn numbered() -> Vec<String> {
    let with_number = |one: &Registry| format!("{} {}", one.number(), word(*one));
    Registry::ALL.iter().map(with_number).collect()
}

/// What a registry is of, and in which TLVs its areas are found.
pub fn about(registry: Registry) -> &'static str {
    match registry {
        Registry::Neighbor => "sub-TLVs of neighbors (TLVs 22 and 222)",
        Registry::Prefix => "sub-TLVs of reachable prefixes (TLVs 27, 135, 235, 236 and 237)",
        Registry::RouterCapability => "sub-TLVs of router capabilities (TLV 242)",
        Registry::Binding => "sub-TLVs of SID/label bindings (TLVs 149 and 150)",
        Registry::Srv6Sid => "sub-sub-TLVs of SRv6 SIDs",
        Registry::Unregistered => {
            "sub-sub-TLVs of SRv6 capabilities, of which none has a name or a meaning"
        }
        _ => "",
    }
}

/// Words for several things: `a`, `a and b`, `a, b and c`.
pub fn listed(words: &[String]) -> String {
    match words {
        [] => String::new(),
        [only] => only.clone(),
        [first @ .., last] => format!("{} and {last}", first.join(", ")),
    }
}

#[cfg(test)]
mod tests {
    use super::*;

    /// The source of the binding's registries.
    const SOURCE: &str = include_str!("../../bindings/rust/src/registry.rs");

    #[test]
    fn words_are_names_in_small_letters() {
        let words: Vec<String> = Registry::ALL.iter().map(|one| word(*one)).collect();
        let expected = "neighbor prefix router-capability binding srv6-sid unregistered";
        assert_eq!(words.join(" "), expected);
    }

    #[test]
    fn a_word_names_its_registry() {
        for registry in Registry::ALL {
            assert_eq!(word(*registry).parse(), Ok(*registry));
        }
    }

    #[test]
    fn what_registries_are_of_is_what_the_binding_says() {
        for registry in Registry::ALL {
            let about = about(*registry)
                .strip_prefix("sub-")
                .expect("sub-TLVs of some kind");
            let line = format!("/// Sub-{about}.\n        {} = ", registry.name());
            assert!(SOURCE.contains(&line), "{line}");
        }
    }

    #[test]
    fn several_words_have_an_and() {
        let words = ["a", "b", "c"].map(String::from);
        assert_eq!(listed(&words[..0]), "");
        assert_eq!(listed(&words[..1]), "a");
        assert_eq!(listed(&words[..2]), "a and b");
        assert_eq!(listed(&words), "a, b and c");
    }
}
