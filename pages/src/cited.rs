//! What the pages cite in backquotes, held to the tree.

use crate::definitions::{Definitions, Place};
use crate::markdown::{quotes, section};
use crate::sources::{Declaration, declared};
use crate::tree::Tree;

/// The pages that are read, where they are there.
pub const PAGES: [&str; 8] = [
    "README.md",
    "CONTRIBUTING.md",
    "docs/STATEMENTS.md",
    "docs/MEANING.md",
    "docs/DECISIONS.md",
    "docs/DIFFERENCES.md",
    "docs/BENCHMARKS.md",
    "docs/LANDINGS.md",
];

/// The endings by which a file is told from other words.
const ENDINGS: [&str; 4] = [".antt", ".rt", ".rs", ".md"];

/// The endings of the sources that are not Rattle.
const ENDINGS_OF_OTHERS: [&str; 2] = [".rs", ".h"];

/// What a text in backquotes cites.
pub enum Citation<'a> {
    /// Items of a file: `tape/specs/Record.antt: words`, or `RecordLaws: label_made`.
    Items(&'a str, Vec<&'a str>),
    /// A file, a folder, or an edit by crate and name: `tools/run`, `compare/`, `tape/wrong_tag`.
    Path(&'a str),
    /// A module, or what it declares: `store::words::put`.
    Code(&'a str),
    /// Names of whatever is declared, told from other words by a line or a hyphen between their own:
    /// `one_entry, old_records`.
    Names(Vec<&'a str>),
}

/// What a text in backquotes cites, where that can be told.
fn citation(quote: &str) -> Option<Citation<'_>> {
    if let Some((file, list)) = quote.split_once(": ") {
        let is_file = is_told(file) || file.starts_with(char::is_uppercase);
        let items: Vec<_> = list.split(", ").collect();
        let are_names = !items.iter().any(|item| item.contains(' '));
        return (is_path(file) && is_file && are_names).then_some(Citation::Items(file, items));
    }
    let first = quote.split(' ').next()?;
    if is_path(first) && is_told(first) {
        let is_ours = !first.contains("NAME") && !first.starts_with("target/");
        return is_ours.then_some(Citation::Path(first.trim_end_matches('/')));
    }
    if quote.contains("::") && is_path(&quote.replace("::", "")) {
        return Some(Citation::Code(quote));
    }
    let names: Vec<_> = quote.split(", ").collect();
    let are_joined = names.iter().all(|name| is_path(name) && has_words(name));
    let is_name = quote.starts_with(char::is_lowercase) && !quote.ends_with('_');
    (are_joined && is_name).then_some(Citation::Names(names))
}

/// Whether a word may be a path or a name.
fn is_path(word: &str) -> bool {
    let is_in_paths = |c: char| c.is_alphanumeric() || "._-/'".contains(c);
    !word.is_empty() && word.chars().all(is_in_paths)
}

/// Whether a name is made of several words.
fn has_words(name: &str) -> bool {
    name.contains(['_', '-'])
}

/// Whether a word can only be a path.
fn is_told(word: &str) -> bool {
    word.contains('/') || ENDINGS.iter().any(|ending| word.ends_with(ending))
}

/// What a page cites, each with the text that does so: in backquotes, and in README.md's tree.
pub fn citations(page: &str) -> Vec<(&str, Citation<'_>)> {
    let cited = quotes(page).filter_map(|quote| Some((quote, citation(quote)?)));
    let words = section(page, "The tree").split([' ', '\n', ',', ';', ':']);
    let paths = words.filter(|word| word.contains('/'));
    let paths = paths.map(|path| (path, Citation::Path(path.trim_end_matches('/'))));
    cited.chain(paths).collect()
}

/// What there is to cite.
pub struct Citable<'a> {
    tree: &'a Tree,
    pub definitions: Definitions,
    declared: Vec<Declaration>,
}

impl<'a> Citable<'a> {
    /// All of a tree.
    pub fn of(tree: &'a Tree) -> Self {
        Self {
            tree,
            definitions: Definitions::of(tree),
            declared: declared(tree),
        }
    }

    /// Whether what is cited is there.
    fn has(&self, citation: &Citation<'_>) -> bool {
        match citation {
            Citation::Items(file, items) if file.ends_with(".rt") || file.ends_with(".rs") => {
                let end = format!("/{file}");
                let mut texts = self.tree.texts("", &end);
                texts.any(|(_, text)| items.iter().all(|item| text.contains(item)))
            }
            Citation::Items(..) => !self.items(citation).is_empty(),
            Citation::Path(path) => self.has_path(path),
            Citation::Code(path) => self.is_declared(path),
            Citation::Names(names) => names.iter().all(|name| self.is_named(name)),
        }
    }

    /// Whether the sources declare this, or what ends so.
    fn is_declared(&self, path: &str) -> bool {
        let end = format!("::{path}");
        let mut paths = self.declared.iter().map(|found| &found.path);
        paths.any(|path| format!("::{path}").ends_with(&end))
    }

    /// Whether there is such a file or folder, a file of definitions, or an edit of a crate.
    fn has_path(&self, path: &str) -> bool {
        let definitions = format!("{path}.antt");
        let edit = path.replacen('/', "/must-fail/", 1) + ".edit";
        let mut paths = [path, &definitions, &edit].into_iter();
        paths.any(|path| self.tree.has(path))
    }

    /// Whether a definition, a theorem, a field, a function, an edit or a file has this name, or what
    /// is not Rattle has such a word.
    fn is_named(&self, name: &str) -> bool {
        let edit = format!("{name}.edit");
        self.is_stated(name)
            || self.definitions.brings_in(name)
            || self.is_declared(name)
            || self.tree.has(name)
            || self.tree.has(&edit)
            || self.is_word(name)
    }

    /// Whether a file of definitions has an item or a field of this name.
    fn is_stated(&self, name: &str) -> bool {
        let declares = |line: &str| {
            let line = line.trim_start().trim_start_matches("pub ");
            line.starts_with(&format!("{name} :"))
        };
        let has = |file: &str| {
            let is_item = self.definitions.item(file, name).is_some();
            is_item || self.tree.text(file).lines().any(declares)
        };
        self.definitions.files().any(has)
    }

    /// Whether this is a word of the C header or of a Rust source outside of this package.
    fn is_word(&self, name: &str) -> bool {
        let is_between = |c: char| !c.is_alphanumeric() && c != '_';
        let mut texts = ENDINGS_OF_OTHERS
            .iter()
            .flat_map(|ending| self.tree.texts("", ending))
            .filter(|(file, _)| !file.starts_with("pages/"));
        texts.any(|(_, text)| text.split(is_between).any(|word| word == name))
    }

    /// What a page cites that is not there, and the lines where a quote has no end.
    pub fn faults(&self, page: &str) -> Vec<String> {
        let cited = citations(page).into_iter();
        let wrong = cited.filter(|(_, citation)| !self.has(citation));
        let wrong = wrong.map(|(quote, _)| format!("{quote} is not there"));
        let lines = page.lines();
        let odd = lines.filter(|line| line.matches('`').count() % 2 == 1);
        let odd = odd.map(|line| format!("a backquote is alone in {line}"));
        wrong.chain(odd).collect()
    }

    /// The items of definitions that are cited.
    pub fn items(&self, citation: &Citation<'_>) -> Vec<Place<'_>> {
        match citation {
            Citation::Items(file, names) => {
                let end = format!("/{}.antt", file.trim_end_matches(".antt"));
                self.in_one_file(&end, names)
            }
            Citation::Names(names) => {
                let names = names.iter();
                names
                    .flat_map(|name| self.in_one_file("", &[name]))
                    .collect()
            }
            _ => Vec::new(),
        }
    }

    /// The items of these names, where a file has them all whose path ends so.
    fn in_one_file(&self, end: &str, names: &[&str]) -> Vec<Place<'_>> {
        let files = self.definitions.files().filter(|file| file.ends_with(end));
        let items = files.filter_map(|file| {
            let items = names.iter().map(|name| self.definitions.item(file, name));
            let places = items.map(|item| Some((file, &item?.name[..])));
            places.collect::<Option<Vec<_>>>()
        });
        items.flatten().collect()
    }
}

/// What the pages cite that is not there.
pub fn faults(tree: &Tree) -> Vec<String> {
    let citable = Citable::of(tree);
    let faults = PAGES.iter().flat_map(|page| {
        let faults = citable.faults(tree.text(page)).into_iter();
        faults.map(move |fault| format!("{page}: {fault}"))
    });
    faults.collect()
}
