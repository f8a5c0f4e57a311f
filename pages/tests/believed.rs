//! The list of what must be believed has all that the contracts and the cited theorems speak of, and
//! nothing else.

use pages::believed::{Needed, PAGE, SECTION, listed, theorems};
use pages::cited::Citable;
use pages::contracts::EntryPoints;
use pages::definitions::{Definitions, Place};
use pages::markdown::section;
use pages::sources::public_functions;
use pages::tree::Tree;

/// A file of definitions that no list names.
const ADDED: &str = "crates/outcome/specs/Added.antt";

/// The page with a row more: a crate, and a name in a column.
fn with_row(page: &str, of: &str, column: usize, name: &str) -> String {
    let rule = "|---|---|---|\n";
    let before = "| ".repeat(column);
    page.replace(rule, &format!("{rule}| `{of}` {before}`{name}` | |\n"))
}

/// The tree where each of these items speaks of one more definition, which is on no list.
fn with_more(tree: &Tree, definitions: &Definitions, items: &[Place<'_>]) -> Tree {
    let more = (0..items.len()).map(|k| format!("abbrev added{k} : N\n"));
    let mut spoiled = tree.with(ADDED, &more.collect::<String>());
    for (k, (file, name)) in items.iter().enumerate() {
        let heading = &definitions.item(file, name).expect(name).heading;
        let spoken = heading.replacen(name, &format!("{name} (x : added{k})"), 1);
        let text = spoiled.text(file).replacen(heading, &spoken, 1);
        let used = format!("use Rattle.outcome.specs.Added.{{added{k}}}\n");
        spoiled = spoiled.with(file, &(used + &text));
    }
    spoiled
}

#[test]
fn the_list_is_complete_and_has_nothing_too_much() {
    let tree = Tree::here();
    let citable = Citable::of(&tree);
    assert_eq!(Needed::of(&tree, &citable).faults(tree.text(PAGE)), [""; 0]);
    assert_eq!(citable.definitions.unknown(), [""; 0]);
    assert!(theorems(&tree, &citable).len() > 60);
}

#[test]
fn anything_taken_off_the_list_is_found() {
    let tree = Tree::here();
    let citable = Citable::of(&tree);
    let needed = Needed::of(&tree, &citable);
    let page = tree.text(PAGE);
    let lines = section(page, SECTION).lines();
    for line in lines.filter(|line| line.starts_with("| `")) {
        for name in line.split('`').skip(3).step_by(2) {
            let page = page.replace(line, &line.replace(&format!("`{name}`"), ""));
            let file = format!("/{}.antt: ", name.split(':').next().unwrap_or(name));
            let faults = needed.faults(&page);
            assert!(
                faults.iter().any(|fault| fault.contains(&file)),
                "{line}: {name}"
            );
        }
    }
}

#[test]
fn anything_else_on_the_list_is_found() {
    let tree = Tree::here();
    let citable = Citable::of(&tree);
    let needed = Needed::of(&tree, &citable);
    let page = tree.text(PAGE);
    for (file, column) in citable
        .definitions
        .files()
        .flat_map(|file| [(file, 1), (file, 2)])
    {
        let (of, inside) = file["crates/".len()..].split_once('/').expect(file);
        let inside = inside.trim_start_matches("specs/");
        let items = citable
            .definitions
            .items(file)
            .iter()
            .map(|item| &item.name[..]);
        for name in items.chain([""]) {
            let entry = format!("{}: {name}", inside.trim_end_matches(".antt"));
            let longer = with_row(page, of, column, entry.trim_end_matches(": "));
            let is_listed = listed(page, column)
                .iter()
                .any(|entry| entry.has((file, name)));
            let mut faults = needed.faults(&longer).into_iter();
            assert!(
                is_listed || faults.any(|fault| fault.starts_with(file)),
                "{file}: {name}"
            );
        }
    }
}

#[test]
fn one_more_definition_in_anything_that_is_needed_is_found() {
    let tree = Tree::here();
    let citable = Citable::of(&tree);
    let needed = Needed::of(&tree, &citable);
    let definitions = needed.contracts.union(&needed.theorems).copied();
    let items: Vec<_> = definitions.chain(theorems(&tree, &citable)).collect();
    let spoiled = with_more(&tree, &citable.definitions, &items);
    let citable = Citable::of(&spoiled);
    let faults = Needed::of(&spoiled, &citable).faults(tree.text(PAGE));
    for (k, place) in items.iter().enumerate() {
        let fault = format!("{ADDED}: added{k} is not listed");
        assert!(faults.contains(&fault), "{place:?}");
    }
}

#[test]
fn one_more_definition_in_the_contract_of_any_entry_point_is_found() {
    let tree = Tree::here();
    let calls = EntryPoints::of(&tree);
    for function in public_functions(&tree)
        .iter()
        .filter(|found| calls.has(found))
    {
        let (_, ensures) = function.header.split_once("ensures { ").expect("one");
        let source = tree
            .text(&function.file)
            .replacen(ensures, &format!("added {ensures}"), 1);
        let source = format!("ghost use Rattle.outcome.specs.Added.{{added}};\n{source}");
        let spoiled = tree
            .with(&function.file, &source)
            .with(ADDED, "abbrev added : N\n");
        let citable = Citable::of(&spoiled);
        let faults = Needed::of(&spoiled, &citable).faults(tree.text(PAGE));
        assert!(
            faults.contains(&format!("{ADDED}: added is not listed")),
            "{}",
            function.path
        );
    }
}
