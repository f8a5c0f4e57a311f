//! Words and counts as messages name them.

/// The most characters of a word that a message repeats.
const LONGEST: usize = 48;

/// A word in quotes, on one line. What cannot be printed is escaped; of a long word the beginning
/// is there, and its length is said.
pub fn quoted(word: &str) -> String {
    let beginning: String = word.chars().take(LONGEST).collect();
    match word.chars().count() {
        length if length > LONGEST => {
            let beginning = quoted_whole(&format!("{beginning}.."));
            format!("{beginning} ({length} characters)")
        }
        _ => quoted_whole(word),
    }
}

/// A word in quotes, on one line, however long it is. What cannot be printed is escaped.
pub fn quoted_whole(word: &str) -> String {
    let printable: String = word.chars().map(printable).collect();
    format!("'{printable}'")
}

/// A character as it is, or escaped where it cannot be printed.
fn printable(character: char) -> String {
    match character {
        '\'' | '"' | '\\' => character.into(),
        _ => character.escape_debug().collect(),
    }
}

/// A count with the noun that it counts: `no octets`, `1 octet`, `2 octets`.
pub fn counted(count: usize, one: &str, many: &str) -> String {
    match count {
        0 => format!("no {many}"),
        1 => format!("1 {one}"),
        _ => format!("{count} {many}"),
    }
}

/// A count of octets.
pub fn octets(count: usize) -> String {
    counted(count, "octet", "octets")
}

#[cfg(test)]
mod tests {
    use super::*;

    #[test]
    fn a_word_is_repeated_as_it_is() {
        assert_eq!(quoted("12g3"), "'12g3'");
        assert_eq!(quoted(""), "''");
        assert_eq!(quoted("it's \\ µ \""), "'it's \\ µ \"'");
    }

    #[test]
    fn what_cannot_be_printed_is_escaped() {
        assert_eq!(quoted("a\u{1b}[31m\n"), "'a\\u{1b}[31m\\n'");
        assert_eq!(quoted("\u{feff}12\u{a0}\0"), "'\\u{feff}12\\u{a0}\\0'");
    }

    #[test]
    fn a_long_word_is_cut_and_its_length_said() {
        assert_eq!(quoted(&"7".repeat(48)), format!("'{}'", "7".repeat(48)));
        let cut = format!("'{}..' (49 characters)", "7".repeat(48));
        assert_eq!(quoted(&"7".repeat(49)), cut);
        assert_eq!(
            quoted_whole(&"7".repeat(49)),
            format!("'{}'", "7".repeat(49))
        );
    }

    #[test]
    fn counts_have_their_noun() {
        assert_eq!(octets(0), "no octets");
        assert_eq!(octets(1), "1 octet");
        assert_eq!(counted(2, "entry", "entries"), "2 entries");
    }
}
