//! What must be believed: the definitions that a page lists, held to those that the contracts and the
//! theorems speak of.

use std::collections::BTreeSet;

use crate::cited::{Citable, citations};
use crate::contracts::EntryPoints;
use crate::definitions::{Definitions, Place};
use crate::markdown::{quotes, rows, section};
use crate::sources::public_functions;
use crate::tree::Tree;

/// The page with the list.
pub const PAGE: &str = "docs/STATEMENTS.md";

/// The section that has it.
pub const SECTION: &str = "What must be believed";

/// The pages whose theorems are read.
const THEOREMS: [&str; 2] = ["docs/STATEMENTS.md", "docs/MEANING.md"];

/// The definitions that the contracts of the entry points speak of, and those that these speak of,
/// and so on.
fn for_contracts<'a>(tree: &Tree, definitions: &'a Definitions) -> BTreeSet<Place<'a>> {
    let listed = EntryPoints::of(tree);
    let functions = public_functions(tree).into_iter();
    let calls = functions.filter(|function| listed.has(function));
    let spoken = calls.flat_map(|function| {
        let (_, ensures) = function.header.split_once("ensures").unwrap_or_default();
        definitions.spoken_of_in(tree.text(&function.file), ensures)
    });
    definitions.closed(spoken.collect())
}

/// The theorems that the pages cite.
pub fn theorems<'a>(tree: &Tree, citable: &'a Citable<'_>) -> BTreeSet<Place<'a>> {
    let cited = THEOREMS.iter().flat_map(|page| citations(tree.text(page)));
    let items = cited.flat_map(|(_, citation)| citable.items(&citation));
    let definitions = &citable.definitions;
    let is_theorem = |(file, name): &Place<'_>| {
        let item = definitions.item(file, name);
        item.is_some_and(|item| item.is_theorem)
    };
    items.filter(is_theorem).collect()
}

/// What the list names: a whole file, or items of it.
pub struct Entry<'a> {
    pub file: String,
    pub items: Vec<&'a str>,
}

impl Entry<'_> {
    /// Whether it names an item.
    pub fn has(&self, (file, name): Place<'_>) -> bool {
        file == self.file && (self.items.is_empty() || self.items.contains(&name))
    }
}

/// What a column of the list names: 1 is for the contracts, 2 for the theorems.
pub fn listed(page: &str, column: usize) -> Vec<Entry<'_>> {
    let rows = rows(section(page, SECTION));
    let cells = rows.filter_map(|cells| Some((quotes(cells[0]).next()?, *cells.get(column)?)));
    let listed = cells.flat_map(|(name, cell)| {
        quotes(cell).map(move |quote| {
            let (file, items) = quote.split_once(": ").unwrap_or((quote, ""));
            Entry {
                file: path(name, file),
                items: items.split(", ").filter(|item| !item.is_empty()).collect(),
            }
        })
    });
    listed.collect()
}

/// The path of a crate's file as the list names it: without its folder in `specs/`, with it in `proofs/`.
fn path(name: &str, file: &str) -> String {
    let folder = if file.starts_with("proofs/") {
        ""
    } else {
        "specs/"
    };
    format!("crates/{name}/{folder}{file}.antt")
}

/// What is needed to believe the contracts, and to know what the theorems say.
pub struct Needed<'a> {
    definitions: &'a Definitions,
    pub contracts: BTreeSet<Place<'a>>,
    pub theorems: BTreeSet<Place<'a>>,
}

impl<'a> Needed<'a> {
    /// What is needed in a tree.
    pub fn of(tree: &Tree, citable: &'a Citable<'_>) -> Self {
        let definitions = &citable.definitions;
        let theorems = theorems(tree, citable).into_iter();
        let spoken = theorems.flat_map(|theorem| definitions.spoken_of(theorem));
        Self {
            definitions,
            contracts: for_contracts(tree, definitions),
            theorems: definitions.closed(spoken.collect()),
        }
    }

    /// What the list on a page lacks, and what it has too much.
    pub fn faults(&self, page: &str) -> Vec<String> {
        let [contracts, theorems] = [1, 2].map(|column| listed(page, column));
        let is_besides = |place: &Place<'_>| !contracts.iter().any(|entry| entry.has(*place));
        let besides = self.theorems.difference(&self.contracts).copied();
        let besides = besides.filter(is_besides).collect();
        let faults = self.faults_of(&self.contracts, &contracts).into_iter();
        faults.chain(self.faults_of(&besides, &theorems)).collect()
    }

    /// What is missing of that which is needed, and what is listed and not needed.
    fn faults_of(&self, needed: &BTreeSet<Place<'_>>, listed: &[Entry<'_>]) -> Vec<String> {
        let is_missing = |place: &&Place<'_>| !listed.iter().any(|entry| entry.has(**place));
        let missing = needed.iter().filter(is_missing);
        let missing = missing.map(|(file, name)| format!("{file}: {name} is not listed"));
        let entries = listed.iter();
        let idle = entries.flat_map(|entry| self.faults_in(needed, entry));
        missing.chain(idle).collect()
    }

    /// What is wrong with an entry of the list, where these items are needed.
    fn faults_in(&self, needed: &BTreeSet<Place<'_>>, entry: &Entry<'_>) -> Vec<String> {
        let Entry { file, items } = entry;
        let idle = items
            .iter()
            .filter(|name| !needed.contains(&(file, **name)));
        let mut faults: Vec<_> = idle
            .map(|name| format!("{file}: {name} is not needed"))
            .collect();
        if !needed.iter().any(|place| entry.has(*place)) {
            faults.push(format!("{file} is not needed"));
        }
        let mut all = self.definitions.items(file).iter();
        if items.is_empty() && all.any(|item| item.is_theorem) {
            faults.push(format!("{file} has theorems: name its definitions"));
        }
        faults
    }
}
