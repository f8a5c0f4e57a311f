//! The words of a call.

/// What can be said.
pub const USAGE: &str = "\
usage: tools/bench [AREAS]         times a push; AREAS: the most areas of a packet, 1 to 255, 16 if not named
       tools/bench --counts        counts the instructions and stores of a push, and lists the library's functions
       tools/bench --long [AREAS]  times one long run of areas; AREAS: 1 to 10000000, 1000000 if not named";

/// The word by which the program calls itself inside valgrind, before the number of pushes.
pub const COUNTED: &str = "--counted";

/// The most areas of a packet, where no number is named.
const PACKET: usize = 16;

/// The most areas of a packet that can be named.
const LARGEST_PACKET: usize = 255;

/// The areas of a long run, where no number is named.
const RUN: usize = 1_000_000;

/// The areas of the longest run.
const LONGEST_RUN: usize = 10_000_000;

/// What a call asks for.
#[derive(Debug, PartialEq)]
pub enum Command {
    /// The table of times; a packet has at most so many areas.
    Table(usize),
    /// The table of counts, and the library's functions.
    Counts,
    /// The first so many of the pushes that are counted.
    Counted(usize),
    /// A long run of so many areas.
    Long(usize),
}

/// What these words ask for, or what is wrong with them.
pub fn command(words: &[String]) -> Result<Command, String> {
    let words: Vec<&str> = words.iter().map(|word| &word[..]).collect();
    match words[..] {
        [] => Ok(Command::Table(PACKET)),
        ["--counts"] => Ok(Command::Counts),
        ["--long"] => Ok(Command::Long(RUN)),
        ["--long", word] => number(word, LONGEST_RUN).map(Command::Long),
        [COUNTED, word] => counted(word),
        ["--counts", more, ..] | ["--long" | COUNTED, _, more, ..] => Err(too_many(more)),
        [word] => number(word, LARGEST_PACKET).map(Command::Table),
        [word, more, ..] => number(word, LARGEST_PACKET).and(Err(too_many(more))),
    }
}

/// The number of areas that a word names, from 1 to a bound.
fn number(word: &str, bound: usize) -> Result<usize, String> {
    match word.parse() {
        Ok(number) if (1..=bound).contains(&number) => Ok(number),
        _ if word.starts_with('-') => Err(format!("there is no option '{word}'")),
        _ => Err(format!("'{word}' is no number of areas from 1 to {bound}")),
    }
}

/// The pushes that are counted, as many of them as a word names.
fn counted(word: &str) -> Result<Command, String> {
    let number = word.parse().map(Command::Counted);
    number.map_err(|_| format!("'{word}' is no number"))
}

/// Says that a word stands where none can.
fn too_many(word: &str) -> String {
    format!("'{word}' is a word too many")
}

#[cfg(test)]
mod tests {
    use super::*;

    /// What these words ask for.
    fn asked(words: &[&str]) -> Result<Command, String> {
        let words: Vec<String> = words.iter().map(ToString::to_string).collect();
        command(&words)
    }

    #[test]
    fn a_packet_has_16_areas_if_no_number_is_named() {
        assert_eq!(asked(&[]), Ok(Command::Table(16)));
    }

    #[test]
    fn a_packet_has_as_many_areas_as_are_named() {
        assert_eq!(asked(&["1"]), Ok(Command::Table(1)));
        assert_eq!(asked(&["255"]), Ok(Command::Table(255)));
    }

    #[test]
    fn a_long_run_has_a_million_areas_or_as_many_as_are_named() {
        assert_eq!(asked(&["--long"]), Ok(Command::Long(1_000_000)));
        assert_eq!(asked(&["--long", "1"]), Ok(Command::Long(1)));
        let longest = asked(&["--long", "10000000"]);
        assert_eq!(longest, Ok(Command::Long(10_000_000)));
    }

    #[test]
    fn the_counts_are_asked_for_by_one_word() {
        assert_eq!(asked(&["--counts"]), Ok(Command::Counts));
        assert_eq!(asked(&["--counted", "007"]), Ok(Command::Counted(7)));
    }

    #[test]
    fn other_words_name_no_number_of_areas() {
        for word in ["0", "256", "1.5", "x", ""] {
            let wrong = format!("'{word}' is no number of areas from 1 to 255");
            assert_eq!(asked(&[word]), Err(wrong));
        }
        let wrong = "'10000001' is no number of areas from 1 to 10000000";
        assert_eq!(asked(&["--long", "10000001"]), Err(wrong.into()));
    }

    #[test]
    fn a_word_with_a_dash_is_taken_for_an_option() {
        for word in ["-1", "--count"] {
            assert_eq!(asked(&[word]), Err(format!("there is no option '{word}'")));
        }
    }

    #[test]
    fn the_first_wrong_word_is_told() {
        for words in [
            &["1", "2"][..],
            &["--counts", "2"],
            &["--long", "1", "2", "3"],
        ] {
            assert_eq!(asked(words), Err("'2' is a word too many".into()));
        }
        let wrong = "'x' is no number of areas from 1 to 255";
        assert_eq!(asked(&["x", "2"]), Err(wrong.into()));
    }

    #[test]
    fn the_usage_has_the_numbers() {
        for number in [PACKET, LARGEST_PACKET, RUN, LONGEST_RUN] {
            assert!(USAGE.contains(&number.to_string()), "{number}");
        }
    }
}
