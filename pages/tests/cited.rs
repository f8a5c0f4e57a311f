//! What the pages cite is there.

use std::collections::BTreeMap;

use pages::cited::{Citable, Citation, PAGES, citations, faults};
use pages::tree::Tree;

/// The form of a citation, and how many of it there must be, so that a reader that finds none is
/// seen.
fn form(citation: &Citation<'_>) -> (&'static str, usize) {
    match citation {
        Citation::Items(..) => ("items", 100),
        Citation::Path(_) => ("paths", 100),
        Citation::Code(_) => ("code", 30),
        Citation::Names(_) => ("names", 10),
    }
}

/// Texts that cite nothing that is there, in place of one that does.
fn spoiled(quote: &str, citation: &Citation<'_>) -> Vec<String> {
    match citation {
        Citation::Items(..) => vec![format!("Zz{quote}"), format!("{quote}Zz")],
        Citation::Path(path) => vec![format!("Zz{path}/")],
        _ => vec![format!("{quote}Zz")],
    }
}

#[test]
fn what_the_pages_cite_is_there() {
    let tree = Tree::here();
    assert_eq!(faults(&tree), [""; 0]);
}

#[test]
fn citations_of_every_form_are_found() {
    let tree = Tree::here();
    let mut counts = BTreeMap::new();
    for (_, citation) in PAGES.iter().flat_map(|page| citations(tree.text(page))) {
        *counts.entry(form(&citation)).or_insert(0) += 1;
    }
    let are_many = counts.iter().all(|((_, least), count)| count >= least);
    assert!(are_many && counts.len() == 4, "{counts:?}");
}

#[test]
fn a_wrong_word_in_any_citation_is_found() {
    let tree = Tree::here();
    let citable = Citable::of(&tree);
    for (quote, citation) in PAGES.iter().flat_map(|page| citations(tree.text(page))) {
        for wrong in spoiled(quote, &citation) {
            assert_eq!(citable.faults(&format!("`{wrong}`\n")).len(), 1, "{wrong}");
        }
    }
}

#[test]
fn a_quote_without_an_end_is_found() {
    let tree = Tree::here();
    let citable = Citable::of(&tree);
    assert_eq!(citable.faults("a `b` c\na `b\nc` d\n").len(), 2);
}

/// The lines of a page that are one word in capitals: a place that was to be filled.
fn unfilled(page: &str) -> Vec<&str> {
    let is_capital = |c: char| c.is_ascii_uppercase() || c.is_ascii_digit() || c == '-';
    let lines = page.lines();
    lines
        .filter(|line| line.len() > 3 && line.chars().all(is_capital) && !line.starts_with('-'))
        .collect()
}

#[test]
fn no_place_on_a_page_was_left_to_be_filled() {
    let tree = Tree::here();
    for page in PAGES {
        assert_eq!(unfilled(tree.text(page)), [""; 0], "{page}");
    }
    assert_eq!(unfilled("a\n\nADD-A-TYPE\n\nb\n----\n"), ["ADD-A-TYPE"]);
}
