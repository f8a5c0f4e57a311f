//! The definitions and theorems of `specs/` and of the files right in `proofs/`, and what each speaks of.

use std::collections::{BTreeMap, BTreeSet};

use crate::tree::Tree;

/// A definition or a theorem.
pub struct Item {
    pub name: String,
    pub is_theorem: bool,
    /// Its first line.
    pub heading: String,
    /// The constructors, where it is a data type.
    constructors: Vec<String>,
    /// What one reads to know what it says: the parameters of its modules, its signature and, where
    /// it is a definition, the rest of it.
    says: String,
}

/// A line that brings names in: from which file, and which, each with the name that it gets; none
/// where the file's own is written before them.
struct Use {
    file: String,
    names: Vec<(String, String)>,
}

/// A file of definitions.
struct File {
    uses: Vec<Use>,
    items: Vec<Item>,
}

/// An item's file and name.
pub type Place<'a> = (&'a str, &'a str);

/// All files of definitions, by their paths.
pub struct Definitions(BTreeMap<String, File>);

impl Definitions {
    /// Those of all crates.
    pub fn of(tree: &Tree) -> Self {
        let files = tree.texts("crates/", ".antt");
        let files = files.filter(|(path, _)| states(path));
        let files = files.map(|(path, text)| (path.into(), file(text)));
        Self(files.collect())
    }

    /// The paths of all files.
    pub fn files(&self) -> impl Iterator<Item = &str> {
        self.0.keys().map(String::as_str)
    }

    /// The items of a file.
    pub fn items(&self, file: &str) -> &[Item] {
        self.0.get(file).map_or(&[], |file| &file.items)
    }

    /// The item of this name in a file.
    pub fn item(&self, file: &str, name: &str) -> Option<&Item> {
        self.items(file).iter().find(|item| item.name == name)
    }

    /// What a word means that a file defines: an item, by its name or a constructor.
    fn defined(&self, file: &str, word: &str) -> Option<Place<'_>> {
        let (file, found) = self.0.get_key_value(file)?;
        let mut items = found.items.iter();
        let item = items.find(|item| bare(&item.name) == word || item.constructs(word))?;
        Some((file, &item.name))
    }

    /// What a word means that is brought in.
    fn used(&self, uses: &[Use], word: &str) -> Option<Place<'_>> {
        uses.iter().find_map(|Use { file, names }| {
            let mut known = names.iter().filter(|(_, known)| bare(known) == word);
            let (before, behind) = word.split_once('.').unwrap_or_default();
            let is_before = names.is_empty() && file.ends_with(&format!("/{before}.antt"));
            let behind = is_before.then_some(behind);
            self.defined(file, known.next().map(|(name, _)| bare(name)).or(behind)?)
        })
    }

    /// The names that a file brings in from another of these which does not define them.
    pub fn unknown(&self) -> Vec<&str> {
        let uses = self.0.values().flat_map(|file| &file.uses);
        let uses = uses.filter(|from| self.0.contains_key(&from.file));
        let names = uses.flat_map(|from| from.names.iter().map(move |name| (from, &name.0)));
        let unknown = names.filter(|(from, name)| self.defined(&from.file, bare(name)).is_none());
        unknown.map(|(_, name)| name.as_str()).collect()
    }

    /// Whether a file brings in this name, from whichever library.
    pub fn brings_in(&self, name: &str) -> bool {
        let uses = self.0.values().flat_map(|file| &file.uses);
        let mut names = uses.flat_map(|from| &from.names);
        names.any(|(found, _)| found == name)
    }

    /// What an item speaks of.
    pub fn spoken_of(&self, (file, name): Place<'_>) -> BTreeSet<Place<'_>> {
        let says = self.item(file, name).map_or("", |item| &item.says);
        let meaning = |word: &str| {
            let own = self.defined(file, word);
            own.or_else(|| self.used(&self.0[file].uses, word))
        };
        words(says)
            .filter_map(|word| with_fields(&word, meaning))
            .collect()
    }

    /// What a text in this source speaks of.
    pub fn spoken_of_in(&self, source: &str, text: &str) -> BTreeSet<Place<'_>> {
        let uses: Vec<_> = source.lines().filter_map(using).collect();
        let meaning = |word: &str| self.used(&uses, word);
        words(text)
            .filter_map(|word| with_fields(&word, meaning))
            .collect()
    }

    /// These items, what they speak of, and so on.
    pub fn closed<'a>(&'a self, items: BTreeSet<Place<'a>>) -> BTreeSet<Place<'a>> {
        let mut left: Vec<_> = items.iter().copied().collect();
        let mut reached = items;
        while let Some(place) = left.pop() {
            let next = self.spoken_of(place).into_iter();
            left.extend(next.filter(|place| reached.insert(*place)));
        }
        reached
    }
}

impl Item {
    /// An item by its lines, inside of modules that begin so.
    fn new(modules: &[&str], lines: &[&str]) -> Option<Self> {
        let (keywords, name) = heading(lines[0])?;
        let is_theorem = keywords.iter().all(|keyword| *keyword == "pub");
        let further = |line: &&&str| indent(line) > indent(lines[0]);
        let signature = 1 + lines[1..].iter().take_while(further).count();
        let length = if is_theorem { signature } else { lines.len() };
        let parts = lines[1..].iter().filter_map(|line| line.split_once(" :"));
        let parts = parts.filter(|_| keywords.contains(&"data"));
        let constructors = parts.flat_map(|(names, _)| names.split_whitespace());
        Some(Self {
            name: name.into(),
            is_theorem,
            heading: lines[0].into(),
            constructors: constructors.map(String::from).collect(),
            says: [modules, &lines[..length]].concat().join("\n"),
        })
    }

    /// Whether it has this constructor.
    fn constructs(&self, word: &str) -> bool {
        self.constructors.iter().any(|name| name == word)
    }
}

/// What a word means, or else what stands before its fields, as `zeros` in `zeros.tag`.
fn with_fields<T>(word: &str, meaning: impl Fn(&str) -> Option<T>) -> Option<T> {
    meaning(word).or_else(|| meaning(word.split_once('.')?.0))
}

/// An operator as it is written between others.
fn bare(name: &str) -> &str {
    name.trim_matches('◌')
}

/// How far a line is indented.
fn indent(line: &str) -> usize {
    line.len() - line.trim_start().len()
}

/// A file of definitions by its text.
fn file(text: &str) -> File {
    let lines = code(text);
    let (imports, lines): (Vec<_>, Vec<_>) = lines.iter().partition(|line| is_import(line));
    File {
        uses: imports.into_iter().filter_map(|line| using(line)).collect(),
        items: items(&lines),
    }
}

/// The lines without comments, the first line of a module in one.
fn code(text: &str) -> Vec<String> {
    let lines = text.lines().filter_map(|line| line.split("--").next());
    let mut found: Vec<String> = Vec::new();
    for line in lines.filter(|line| !line.trim().is_empty()) {
        match found.last_mut() {
            Some(last) if is_module(last) && !last.ends_with(" where") => last.push_str(line),
            _ => found.push(line.into()),
        }
    }
    found
}

/// Whether a line begins a module inside a file.
fn is_module(line: &str) -> bool {
    line.trim_start().starts_with("module ")
}

/// Whether a line brings in names or files.
fn is_import(line: &str) -> bool {
    let line = line.trim_start_matches("pub ");
    line.starts_with("use ") || line.starts_with("mod ")
}

/// What a line brings in of our definitions: `use Rattle.CRATE.specs.FILE.{a, b as c}`, or of
/// `proofs`, with or without the names.
fn using(line: &str) -> Option<Use> {
    let (_, path) = line.split_once("use Rattle.")?;
    let path = path.trim_end_matches([';', '}']);
    let split = |part| Some((part, path.split_once(&format!(".{part}."))?));
    let (part, (of, inside)) = split("specs").or_else(|| split("proofs"))?;
    let (module, list) = inside.split_once(".{").unwrap_or((inside, ""));
    let module = module.replace('.', "/");
    let names = list.split(", ").filter(|name| !name.is_empty());
    let names = names.map(|name| name.split_once(" as ").unwrap_or((name, name)));
    let names = names.map(|(name, known)| (name.into(), known.into()));
    Some(Use {
        file: format!("crates/{of}/{part}/{module}.antt"),
        names: names.collect(),
    })
}

/// Whether a file has definitions or theorems: those of `specs/`, and those right in `proofs/`, where
/// each folder is the proof of a function.
fn states(path: &str) -> bool {
    let in_proofs = path.split_once("/proofs/");
    path.contains("/specs/") || in_proofs.is_some_and(|(_, file)| !file.contains('/'))
}

/// The items of a file.
fn items(lines: &[&String]) -> Vec<Item> {
    let mut modules: Vec<&str> = Vec::new();
    let mut groups: Vec<(Vec<&str>, Vec<&str>)> = Vec::new();
    for line in lines {
        modules.truncate(indent(line) / 2);
        let is_inside = indent(line) == 2 * modules.len();
        if is_inside && is_module(line) {
            modules.push(line);
        } else if is_inside && heading(line).is_some() {
            groups.push((modules.clone(), vec![line]));
        } else if let Some((_, lines)) = groups.last_mut() {
            lines.push(line);
        }
    }
    let items = groups
        .iter()
        .map(|(modules, lines)| Item::new(modules, lines));
    items.flatten().collect()
}

/// Of the first line of an item, the words before its name and the name.
fn heading(line: &str) -> Option<(Vec<&str>, &str)> {
    let is_keyword = |word: &&str| ["abbrev", "unfoldable", "pub", "record", "data"].contains(word);
    let mut words = line.split_whitespace();
    let keywords: Vec<_> = words.by_ref().take_while(is_keyword).collect();
    let name = line.split_whitespace().nth(keywords.len())?;
    let is_heading = !keywords.is_empty() || words.next() == Some(":");
    is_heading.then_some((keywords, name))
}

/// The words of a text without those that a line or a record in it declares, which stand before a
/// colon or an equals sign.
fn words(text: &str) -> impl Iterator<Item = String> {
    const MARKS: [&str; 8] = ["\n", "{", ";", "}", "(", ")", "⌜", "⌝"];
    let spaced = MARKS.iter().fold(text.to_string(), |text, mark| {
        text.replace(mark, &format!(" {mark} "))
    });
    let mut said: Vec<String> = Vec::new();
    let mut declared_from = Some(0);
    for word in spaced.split(' ').filter(|word| !word.is_empty()) {
        match (word, declared_from.take()) {
            ("\n" | "{" | ";", _) => declared_from = Some(said.len()),
            (":", Some(from)) => said.truncate(from),
            ("=", Some(from)) if said.len() == from + 1 => said.truncate(from),
            _ if MARKS.contains(&word) => {}
            (_, from) => {
                said.push(word.trim_end_matches(',').into());
                declared_from = from;
            }
        }
    }
    said.into_iter()
}
