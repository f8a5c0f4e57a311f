//! The page of the command says what the command does.

mod shared;

use shared::said;

/// The page.
const README: &str = include_str!("../README.md");

/// What an example begins with.
const PROMPT: &str = "    $ wakkemosut ";

/// The examples of the page: the words of each, and what it prints.
fn examples() -> Vec<(Vec<&'static str>, String)> {
    let mut examples = Vec::new();
    let mut lines = README.lines();
    while let Some(line) = lines.next() {
        if let Some(words) = line.strip_prefix(PROMPT) {
            let is_inside = |line: &&str| line.is_empty() || line.starts_with("    ");
            let printed = lines
                .by_ref()
                .take_while(is_inside)
                .map(outdented)
                .collect::<String>();
            let printed = printed.trim_end_matches('\n').to_string() + "\n";
            examples.push((words.split(' ').collect(), printed));
        }
    }
    examples
}

/// A line of an example, without what sets it off.
fn outdented(line: &str) -> String {
    format!("{}\n", line.strip_prefix("    ").unwrap_or(line))
}

#[test]
fn examples_print_what_the_page_says() {
    let examples = examples();
    assert_eq!(examples.len(), 4);
    for (words, printed) in examples {
        let said = said(&words);
        assert_eq!(said.out + &said.error, printed, "{words:?}");
    }
}

#[test]
fn every_option_of_the_help_is_on_the_page() {
    let help = said(&["--help"]).out;
    let words = help
        .split_whitespace()
        .map(|word| word.trim_matches(['[', ']', ',']));
    for option in words.filter(|word| word.starts_with("--") && *word != "--version") {
        assert!(README.contains(option), "{option}");
    }
}
