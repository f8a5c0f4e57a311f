//! What docs/STATEMENTS.md says of the public functions, held to the sources.

use std::collections::BTreeSet;

use crate::markdown::{quotes, rows, section};
use crate::sources::{Declaration, public_functions};
use crate::tree::Tree;

/// The page that lists the entry points.
pub const PAGE: &str = "docs/STATEMENTS.md";

/// What the page lists.
pub struct EntryPoints<'a> {
    /// The calls, in Rattle, over C and over C on a slim tape.
    pub calls: BTreeSet<&'a str>,
    /// The modules and crates whose functions may ask something of their callers.
    pub inner: BTreeSet<&'a str>,
}

impl<'a> EntryPoints<'a> {
    /// What the page of a tree lists.
    pub fn of(tree: &'a Tree) -> Self {
        let section = section(tree.text(PAGE), "Entry points");
        let cells = rows(section).flat_map(|cells| cells.into_iter().skip(1).take(3));
        let (_, list) = section.split_once("\nInner: ").unwrap_or_default();
        Self {
            calls: cells.flat_map(quotes).collect(),
            inner: list.split('.').take(1).flat_map(quotes).collect(),
        }
    }

    /// Whether a function is one of the calls.
    pub fn has(&self, function: &Declaration) -> bool {
        self.calls.contains(called(function))
    }

    /// Whether a function stands in an inner module.
    pub fn is_inner(&self, function: &Declaration) -> bool {
        self.inner.iter().any(|module| is_in(function, module))
    }
}

/// What the table calls a function: over C it has no crate and module.
pub fn called(function: &Declaration) -> &str {
    if function.is_c() {
        function.name()
    } else {
        &function.path
    }
}

/// Whether a function stands in a module or crate.
fn is_in(function: &Declaration, module: &str) -> bool {
    let inside = function.path.strip_prefix(module);
    inside.is_some_and(|rest| rest.starts_with("::"))
}

/// What is wrong with the public functions of the libraries, or with the page.
pub fn faults(tree: &Tree) -> Vec<String> {
    let functions = public_functions(tree);
    let listed = EntryPoints::of(tree);
    let mut faults = Vec::new();
    for function in &functions {
        let path = &function.path;
        if !function.has("ensures") {
            faults.push(format!("{path} has no ensures"));
        }
        if function.has("requires") && !listed.is_inner(function) {
            faults.push(format!("{path} has a requires"));
        }
        if function.is_c() && !listed.has(function) {
            faults.push(format!("{path} is not in the table"));
        }
    }
    for call in &listed.calls {
        if !functions
            .iter()
            .any(|found| called(found) == *call && !listed.is_inner(found))
        {
            faults.push(format!("{call} is no public function, or an inner one"));
        }
    }
    for module in &listed.inner {
        if !functions
            .iter()
            .any(|found| is_in(found, module) && found.has("requires"))
        {
            faults.push(format!("{module} has no public function with a requires"));
        }
    }
    faults
}
