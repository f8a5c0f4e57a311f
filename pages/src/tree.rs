//! The files of the repository.

use std::collections::BTreeMap;
use std::fs;
use std::path::Path;
use std::rc::Rc;

/// The folders that are not the repository's own.
const LEFT_OUT: [&str; 3] = [".git", "target", "out"];

/// The files of the repository: their paths and texts.
#[derive(Clone, Default)]
pub struct Tree(BTreeMap<String, Rc<str>>);

impl Tree {
    /// The repository that this package is part of.
    pub fn here() -> Self {
        let mut tree = Self::default();
        tree.add(Path::new(concat!(env!("CARGO_MANIFEST_DIR"), "/..")), "");
        tree
    }

    /// Adds the files of a folder, whose paths begin so.
    fn add(&mut self, folder: &Path, before: &str) {
        for entry in fs::read_dir(folder).expect("a folder can be read") {
            let entry = entry.expect("a folder can be read");
            let name = entry.file_name().into_string().expect("a name is text");
            let path = format!("{before}{name}");
            let is_folder = entry.file_type().is_ok_and(|kind| kind.is_dir());
            if !is_folder {
                let octets = fs::read(entry.path()).expect("a file can be read");
                self.0.insert(path, String::from_utf8_lossy(&octets).into());
            } else if !LEFT_OUT.contains(&name.as_str()) {
                self.add(&entry.path(), &format!("{path}/"));
            }
        }
    }

    /// The text of a file, empty where there is none.
    pub fn text(&self, path: &str) -> &str {
        self.0.get(path).map_or("", |text| text)
    }

    /// The files of a folder with this ending: their paths and texts.
    pub fn texts(&self, folder: &str, ending: &str) -> impl Iterator<Item = (&str, &str)> {
        let files = self.0.iter().map(|(path, text)| (path.as_str(), &**text));
        files.filter(move |(path, _)| path.starts_with(folder) && path.ends_with(ending))
    }

    /// The same files, one of them with another text.
    pub fn with(&self, path: &str, text: &str) -> Self {
        let mut tree = self.clone();
        tree.0.insert(path.into(), text.into());
        tree
    }

    /// Whether a file or a folder has this path, or the end of its path is this.
    pub fn has(&self, path: &str) -> bool {
        let part = format!("/{path}/");
        let mut paths = self.0.keys().map(|file| format!("/{file}/"));
        paths.any(|file| file.contains(&part))
    }
}
