//! The words of a call, taken apart: the command, its options, and the other words.

use std::ffi::OsString;

use crate::failure::Failure;
use crate::quote::quoted;

/// What a call asks for.
#[derive(Debug, PartialEq, Eq)]
pub enum Command {
    /// The page of help.
    Help,
    /// The version.
    Version,
    /// What an area says.
    Area(Words),
}

/// The words of a command, its options apart.
#[derive(Debug, Default, PartialEq, Eq)]
pub struct Words {
    /// The words that are no options, in their order.
    pub operands: Vec<String>,
    /// The options, each with the word that it takes, or with none.
    options: Vec<(&'static str, Option<String>)>,
}

impl Words {
    /// Whether an option is there.
    pub fn has(&self, name: &str) -> bool {
        self.options.iter().any(|(option, _)| *option == name)
    }

    /// The word of an option that takes one, if the option is there.
    pub fn word_of(&self, name: &str) -> Option<&str> {
        let chosen = self.options.iter().find(|(option, _)| *option == name)?;
        chosen.1.as_deref()
    }
}

/// The option that shows every record in a line.
pub const RECORDS: &str = "--records";

/// The option that shows an area as a JSON object.
pub const JSON: &str = "--json";

/// The option that names a file with a text in hex.
pub const FILE: &str = "--file";

/// The option that names a file whose octets are taken as they are.
pub const BINARY: &str = "--binary";

/// An option that a command knows, and what the word is that it takes, if it takes one.
type Known = (&'static str, Option<&'static str>);

/// The options of the command `area`.
const AREA_OPTIONS: [Known; 4] = [
    (RECORDS, None),
    (JSON, None),
    (FILE, Some("FILE")),
    (BINARY, Some("FILE")),
];

/// What the words of a call ask for.
pub fn take_apart(words: impl Iterator<Item = OsString>) -> Result<Command, Failure> {
    let words = words.map(text).collect::<Result<Vec<_>, _>>()?;
    let Some((first, rest)) = words.split_first() else {
        return Err(Failure::NoWords);
    };
    match first.as_str() {
        "--help" | "-h" | "help" => Ok(Command::Help),
        "--version" | "-V" => Ok(Command::Version),
        "area" => with_options(rest, &AREA_OPTIONS, Command::Area),
        option if is_option(option) => Err(behind_command(option)),
        other => Err(Failure::usage(format!(
            "there is no command {}; the first word is 'area'",
            quoted(other)
        ))),
    }
}

/// A word as text.
fn text(word: OsString) -> Result<String, Failure> {
    word.into_string().map_err(|word| {
        let lossy = quoted(&word.to_string_lossy());
        Failure::usage(format!("the word {lossy} is not UTF-8"))
    })
}

/// A command with its words, unless they ask for help or the version.
fn with_options(
    words: &[String],
    known: &'static [Known],
    command: impl FnOnce(Words) -> Command,
) -> Result<Command, Failure> {
    let mut taken = Words::default();
    let mut rest = words.iter();
    while let Some(word) = rest.next() {
        match word.as_str() {
            "--help" | "-h" => return Ok(Command::Help),
            "--version" | "-V" => return Ok(Command::Version),
            "--" => taken.operands.extend(rest.by_ref().cloned()),
            option if is_option(option) => {
                let option = option_of(option, &mut rest, known)?;
                add(option, &mut taken)?;
            }
            _ => taken.operands.push(word.clone()),
        }
    }
    Ok(command(taken))
}

/// Whether a word is an option: it begins with a dash and is not the dash alone.
fn is_option(word: &str) -> bool {
    word.starts_with('-') && word != "-"
}

/// The option that a word names, with the word that it takes: behind `=`, or the next of the rest.
fn option_of<'words>(
    word: &str,
    rest: &mut impl Iterator<Item = &'words String>,
    known: &'static [Known],
) -> Result<(&'static str, Option<String>), Failure> {
    let (name, joined) = match word.split_once('=') {
        Some((name, joined)) => (name, Some(joined.to_string())),
        None => (word, None),
    };
    let Some((name, takes)) = known.iter().find(|option| option.0 == name) else {
        return Err(no_option(word));
    };
    match (takes, joined) {
        (None, None) => Ok((name, None)),
        (None, Some(_)) => Err(Failure::usage(format!(
            "{name} takes no word, so {} is wrong",
            quoted(word)
        ))),
        (Some(what), joined) => {
            let next = || rest.next().filter(|next| !is_option(next)).cloned();
            let taken = joined.or_else(next).filter(|taken| !taken.is_empty());
            let missing = || Failure::usage(format!("{name} is without its {what}"));
            Ok((name, Some(taken.ok_or_else(missing)?)))
        }
    }
}

/// Adds an option to those that are there, which it must not be among.
fn add(option: (&'static str, Option<String>), taken: &mut Words) -> Result<(), Failure> {
    if taken.has(option.0) {
        return Err(Failure::usage(format!("{} is there twice", option.0)));
    }
    taken.options.push(option);
    Ok(())
}

/// The failure of an option that stands before the command.
fn behind_command(word: &str) -> Failure {
    let name = word.split('=').next().unwrap_or(word);
    if AREA_OPTIONS.iter().any(|option| option.0 == name) {
        return Failure::usage(format!("{} stands behind 'area'", quoted(word)));
    }
    no_option(word)
}

/// The failure of a word that names no option.
fn no_option(word: &str) -> Failure {
    Failure::usage(format!("there is no option {}", quoted(word)))
}

#[cfg(test)]
mod tests {
    use super::*;

    /// What words ask for, or the text that tells why not.
    fn asked(words: &[&str]) -> Result<Command, String> {
        let words = words.iter().map(OsString::from);
        take_apart(words).map_err(|failure| failure.text())
    }

    /// The first line of what is told of wrong words.
    fn told(words: &[&str]) -> String {
        let text = asked(words).unwrap_err();
        text.lines().next().unwrap_or_default().to_string()
    }

    /// The words of a command `area`.
    fn area(words: &[&str]) -> Words {
        match asked(words) {
            Ok(Command::Area(words)) => words,
            other => panic!("{other:?}"),
        }
    }

    #[test]
    fn help_and_version_are_found_everywhere() {
        for words in [
            &["--help"][..],
            &["-h"],
            &["help"],
            &["help", "area"],
            &["area", "--help"],
            &["area", "0", "1", "-h", "--nothing"],
        ] {
            assert_eq!(asked(words), Ok(Command::Help), "{words:?}");
        }
        for words in [
            &["--version"][..],
            &["-V"],
            &["area", "-V"],
            &["area", "0", "--version"],
        ] {
            assert_eq!(asked(words), Ok(Command::Version), "{words:?}");
        }
    }

    #[test]
    fn options_stand_anywhere() {
        for words in [
            ["area", "--file", "f", "--json", "0", "100"],
            ["area", "0", "--file", "f", "100", "--json"],
            ["area", "--json", "0", "100", "--file", "f"],
        ] {
            let taken = area(&words);
            assert_eq!(taken.operands, ["0", "100"]);
            assert_eq!(taken.word_of("--file"), Some("f"));
            assert!(taken.has("--json") && !taken.has("--records"));
            assert_eq!(taken.word_of("--binary"), None);
        }
    }

    #[test]
    fn a_word_may_be_joined_to_its_option() {
        assert_eq!(area(&["area", "--file=a=b"]).word_of("--file"), Some("a=b"));
        assert_eq!(
            area(&["area", "--binary=-x"]).word_of("--binary"),
            Some("-x")
        );
        assert_eq!(area(&["area", "--file", "-"]).word_of("--file"), Some("-"));
    }

    #[test]
    fn two_dashes_end_the_options() {
        let taken = area(&["area", "0", "--", "--json", "-h", "--", "-"]);
        assert_eq!(taken.operands, ["0", "--json", "-h", "--", "-"]);
        assert!(!taken.has("--json"));
    }

    #[test]
    fn a_dash_alone_is_no_option() {
        assert_eq!(area(&["area", "-", "", "-"]).operands, ["-", "", "-"]);
    }

    #[test]
    fn wrong_options_are_named() {
        for (words, message) in [
            (&["area", "--jsn"][..], "there is no option '--jsn'"),
            (&["area", "0", "-1"], "there is no option '-1'"),
            (&["area", "-j"], "there is no option '-j'"),
            (&["-x"], "there is no option '-x'"),
            (
                &["area", "--json=x"],
                "--json takes no word, so '--json=x' is wrong",
            ),
            (&["area", "--file"], "--file is without its FILE"),
            (&["area", "--file="], "--file is without its FILE"),
            (&["area", "--file", ""], "--file is without its FILE"),
            (
                &["area", "--binary", "--json"],
                "--binary is without its FILE",
            ),
            (&["area", "--json", "--json"], "--json is there twice"),
            (
                &["area", "--file=a", "--file", "b"],
                "--file is there twice",
            ),
        ] {
            assert_eq!(told(words), format!("wakkemosut: {message}"), "{words:?}");
        }
    }

    #[test]
    fn a_command_that_is_none_is_named() {
        let message = "wakkemosut: there is no command 'aera'; the first word is 'area'";
        assert_eq!(told(&["aera", "0"]), message);
        assert_eq!(told(&[""]), message.replace("aera", ""));
        assert!(matches!(take_apart([].into_iter()), Err(Failure::NoWords)));
    }

    #[cfg(unix)]
    #[test]
    fn a_word_that_is_no_text_is_shown_as_far_as_it_goes() {
        use std::os::unix::ffi::OsStringExt;

        let words = ["area".into(), OsString::from_vec(vec![b'1', 0xFF, b'2'])];
        let text = take_apart(words.into_iter()).unwrap_err().text();
        assert!(
            text.starts_with("wakkemosut: the word '1\u{fffd}2' is not UTF-8\n"),
            "{text}"
        );
    }
}
