//! The functions of the library's archive, as `nm` tells them.

use std::env;
use std::io::ErrorKind;
use std::path::{Path, PathBuf};
use std::process::Command;

/// One object of the archive.
#[derive(Debug, PartialEq)]
pub struct Object {
    /// Its name.
    pub name: String,
    /// Its functions that cannot be called from outside, the largest first.
    pub inner: Vec<Function>,
}

/// A function.
#[derive(Debug, PartialEq)]
pub struct Function {
    /// Its name.
    pub name: String,
    /// The octets of its code.
    pub octets: usize,
}

/// The objects of the library that this program was linked with, or why they are not known.
pub fn objects() -> Result<Vec<Object>, String> {
    let archive = archive();
    let run = Command::new("nm").arg("-S").arg(&archive).output();
    let run = run.map_err(|error| match error.kind() {
        ErrorKind::NotFound => "nm is not installed".into(),
        _ => format!("nm cannot be run: {error}"),
    })?;
    if !run.status.success() {
        let said = String::from_utf8_lossy(&run.stderr);
        return Err(format!("nm failed: {}", said.trim_end()));
    }
    Ok(parsed(&String::from_utf8_lossy(&run.stdout)))
}

/// The library's archive, in the folder that a variable names or in target/host.
fn archive() -> PathBuf {
    let top = Path::new(env!("CARGO_MANIFEST_DIR")).join("..");
    let named = env::var_os("WAKKEMOSUT_LIB").filter(|named| !named.is_empty());
    let folder = named.map_or_else(|| top.join("target/host"), PathBuf::from);
    folder.join("libwakkemosut.a")
}

/// The objects of what `nm -S` prints of an archive.
fn parsed(text: &str) -> Vec<Object> {
    let mut objects: Vec<Object> = Vec::new();
    for line in text.lines() {
        if let Some(name) = line.strip_suffix(".o:") {
            objects.push(Object {
                name: name.into(),
                inner: Vec::new(),
            });
        } else if let (Some(object), Some(function)) = (objects.last_mut(), inner(line)) {
            object.inner.push(function);
        }
    }
    for object in &mut objects {
        object
            .inner
            .sort_by_key(|function| usize::MAX - function.octets);
    }
    objects
}

/// The function of a line of address, size, kind and name, where it is one of the object's own.
fn inner(line: &str) -> Option<Function> {
    let words: Vec<&str> = line.splitn(4, ' ').collect();
    match words[..] {
        [_, size, "t", name] => Some(Function {
            name: name.into(),
            octets: usize::from_str_radix(size, 16).ok()?,
        }),
        _ => None,
    }
}

#[cfg(test)]
mod tests {
    use super::*;

    /// What nm prints of a small archive.
    const TEXT: &str = "
one.o:
0000000000000000 0000000000000138 t calls::nest::split
                 U memcpy
0000000000002070 0000000000000038 T wakkemosut_clear
0000000000000138 0000000000001c98 t walk::walk
0000000000000000 0000000000000010 r TABLE
0000000000000000 t without_a_size

two.o:
0000000000002070 0000000000000038 T wakkemosut_slim_clear
";

    #[test]
    fn the_functions_of_an_object_are_those_that_are_not_exported() {
        let [one, two] = &parsed(TEXT)[..] else {
            panic!("two objects are there");
        };
        let function = |name: &str, octets| Function {
            name: name.into(),
            octets,
        };
        let expected = [
            function("walk::walk", 0x1C98),
            function("calls::nest::split", 0x138),
        ];
        assert_eq!((&one.name[..], &one.inner[..]), ("one", &expected[..]));
        assert_eq!((&two.name[..], &two.inner[..]), ("two", &[][..]));
    }
}
