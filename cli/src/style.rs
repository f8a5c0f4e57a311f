//! Colours for terminals.

use std::env;
use std::ffi::OsStr;
use std::io::{self, IsTerminal};

/// How the parts of a listing are marked: with colours, or not at all.
#[derive(Clone, Copy, Debug)]
pub struct Style {
    /// Whether there are colours.
    colours: bool,
}

impl Style {
    /// The style without colours.
    pub const PLAIN: Self = Self { colours: false };

    /// The style with colours.
    pub const COLOURED: Self = Self { colours: true };

    /// The style of standard output.
    pub fn of_output() -> Self {
        let no_color = env::var_os("NO_COLOR");
        let term = env::var_os("TERM");
        let terminal = io::stdout().is_terminal();
        if has_colours(terminal, no_color.as_deref(), term.as_deref()) {
            Self::COLOURED
        } else {
            Self::PLAIN
        }
    }

    /// The name of a type, bold.
    pub fn name(self, text: &str) -> String {
        self.marked("1", text)
    }

    /// A place, dim.
    pub fn place(self, text: &str) -> String {
        self.marked("2", text)
    }

    /// A warning, yellow.
    pub fn warning(self, text: &str) -> String {
        self.marked("33", text)
    }

    /// A text marked by a code of the terminal.
    fn marked(self, code: &str, text: &str) -> String {
        if self.colours {
            format!("\u{1b}[{code}m{text}\u{1b}[0m")
        } else {
            text.into()
        }
    }
}

/// Whether there are colours: on a terminal that is not dumb, unless `NO_COLOR` is set and
/// not empty.
fn has_colours(terminal: bool, no_color: Option<&OsStr>, term: Option<&OsStr>) -> bool {
    let unwanted = no_color.is_some_and(|set| !set.is_empty());
    let dumb = term.is_some_and(|term| term == "dumb");
    terminal && !unwanted && !dumb
}

#[cfg(test)]
mod tests {
    use super::*;

    #[test]
    fn colours_are_for_terminals_that_want_them() {
        let set = |text| Some(OsStr::new(text));
        assert!(has_colours(true, None, None));
        assert!(has_colours(true, set(""), set("xterm-256color")));
        assert!(!has_colours(true, set("1"), set("xterm")));
        assert!(!has_colours(true, set("0"), None));
        assert!(!has_colours(true, None, set("dumb")));
        assert!(!has_colours(false, None, set("xterm")));
        assert!(!has_colours(false, set(""), None));
    }

    #[test]
    fn parts_are_marked_in_colours_alone() {
        assert_eq!(Style::COLOURED.name("MTU"), "\u{1b}[1mMTU\u{1b}[0m");
        assert_eq!(Style::COLOURED.place("100"), "\u{1b}[2m100\u{1b}[0m");
        assert_eq!(Style::COLOURED.warning("no"), "\u{1b}[33mno\u{1b}[0m");
        assert_eq!(Style::PLAIN.name("MTU"), "MTU");
        assert_eq!(Style::PLAIN.place("100"), "100");
        assert_eq!(Style::PLAIN.warning("no"), "no");
    }
}
