//! What the sources of the crates declare: modules, types, traits, constants, and functions with their
//! contracts.

use std::ops::Range;

use crate::tree::Tree;

/// The words that declare a name.
const KEYWORDS: [&str; 6] = ["fn", "struct", "enum", "trait", "type", "const"];

/// A module, a type, a trait, a constant or a function.
pub struct Declaration {
    /// The path of its source.
    pub file: String,
    /// Crate, module, type and name, such as `tape::Record::label`.
    pub path: String,
    /// The words before its name; of what a public trait has, `pub` before these.
    keywords: String,
    /// Of a function, the lines up to the opening of its body, or to its end where it has none.
    pub lines: Range<usize>,
    /// What these lines say, without comments.
    pub header: String,
}

impl Declaration {
    /// Its name alone.
    pub fn name(&self) -> &str {
        self.path.rsplit("::").next().unwrap_or(&self.path)
    }

    /// Whether it is a `pub fn`, or a function of a `pub trait`.
    pub fn is_public_function(&self) -> bool {
        self.keywords.starts_with("pub") && self.keywords.ends_with("fn")
    }

    /// Whether it is a function of the C boundary.
    pub fn is_c(&self) -> bool {
        self.keywords.contains("extern \"C\"")
    }

    /// Whether its header has a word.
    pub fn has(&self, word: &str) -> bool {
        let mut words = self.header.split(|c| !is_in_names(c));
        words.any(|found| found == word)
    }
}

/// Whether names have such a character.
fn is_in_names(c: char) -> bool {
    c.is_alphanumeric() || c == '_'
}

/// What all crates declare.
pub fn declared(tree: &Tree) -> Vec<Declaration> {
    let sources = tree.texts("crates/", ".rt");
    let sources = sources.filter(|(file, _)| file.contains("/src/"));
    sources
        .flat_map(|(file, text)| declared_in(file, text))
        .collect()
}

/// The public functions of all libraries.
pub fn public_functions(tree: &Tree) -> Vec<Declaration> {
    let is_library = |file: &str| {
        let folder = file.split("/src/").next().unwrap_or(file);
        !tree.text(&format!("{folder}/src/lib.rt")).is_empty()
    };
    let declared = declared(tree).into_iter();
    declared
        .filter(|found| found.is_public_function() && is_library(&found.file))
        .collect()
}

/// What a file declares, and its module itself.
fn declared_in(file: &str, text: &str) -> Vec<Declaration> {
    let module = file.replace("crates/", "").replace("/src/", "::");
    let module = module.replace(".rt", "").replace('/', "::");
    let module = module.trim_end_matches("::lib").trim_end_matches("::main");
    let lines: Vec<_> = text.lines().collect();
    let declare = |path, keywords, lines_of_header: Range<usize>| Declaration {
        file: file.into(),
        path,
        keywords,
        header: lines[lines_of_header.clone()]
            .iter()
            .map(|line| code(line))
            .collect::<Vec<_>>()
            .join("\n"),
        lines: lines_of_header,
    };
    let mut declared = vec![declare(module.into(), "mod".into(), 0..0)];
    let mut place = module.to_string();
    let mut before = "";
    for (at, line) in lines.iter().map(|line| code(line)).enumerate() {
        if line == "}" {
            (place, before) = (module.into(), "");
        }
        if let Some((keywords, name)) = declaration(line) {
            let path = format!("{place}::{name}");
            declared.push(declare(
                path,
                before.to_string() + &keywords,
                at..header(&lines, at),
            ));
        }
        if let Some((keywords, owner)) = owner(line) {
            place = format!("{module}::{owner}");
            before = if keywords == "pub trait" { "pub " } else { "" };
        }
    }
    declared
}

/// Whose functions the lines behind this one have: the words before it, and the type of an `impl` or the trait.
fn owner(line: &str) -> Option<(&str, &str)> {
    let keywords = ["impl", "trait", "pub trait"].into_iter();
    let behind = |keyword| Some((keyword, line.strip_prefix(keyword)?));
    let (keywords, rest) = keywords.filter_map(behind).next()?;
    let rest = without_brackets(rest).trim_start();
    let owner = rest.split_once(" for ").map_or(rest, |(_, owner)| owner);
    let name = owner.split(|c| !is_in_names(c)).next()?;
    (line.ends_with('{') && !name.is_empty()).then_some((keywords, name))
}

/// What stands behind the brackets that a text begins with, such as `<'a, L: Layout>`.
fn without_brackets(text: &str) -> &str {
    let mut open = 0;
    let end = text.find(|c| {
        open += usize::from(c == '<');
        open -= usize::from(c == '>' && open > 0);
        open == 0
    });
    text[end.unwrap_or(0)..].trim_start_matches('>')
}

/// A line without its comment.
fn code(line: &str) -> &str {
    line.split("//").next().unwrap_or(line).trim_end()
}

/// What a line declares: the words before the name, and the name.
fn declaration(line: &str) -> Option<(String, &str)> {
    let words: Vec<_> = line.split_whitespace().collect();
    let place = |keyword| words.iter().position(|word| word == keyword);
    let at = KEYWORDS.iter().find_map(place)?;
    let may_be_first = |word: &str| word.starts_with("pub") || ["extern", "final"].contains(&word);
    let is_first = at == 0 || may_be_first(words[0]);
    let name = words.get(at + 1)?.split(|c| !is_in_names(c)).next()?;
    is_first.then(|| (words[..=at].join(" "), name))
}

/// The line after the one that opens the body of the function at a line, both indented alike, or that ends what has no
/// body; the header of none goes past a blank line.
fn header(lines: &[&str], at: usize) -> usize {
    let indent = |line: &str| line.len() - line.trim_start().len();
    let opens = |line: &str| line.ends_with('{') && indent(line) == indent(lines[at]);
    let ends = |line: &&str| line.is_empty() || opens(code(line)) || code(line).ends_with(';');
    let length = lines[at..].iter().position(ends);
    length.map_or(lines.len(), |length| at + length + 1)
}
