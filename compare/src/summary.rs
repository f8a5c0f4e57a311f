//! The counts of all tests of a run, gathered in a file.

use std::env;
use std::fs::OpenOptions;
use std::io::{self, Write};
use std::path::Path;

/// The variable that names the file.
const FILE_VARIABLE: &str = "WAKKEMOSUT_SUMMARY";

/// Adds the counts of a test to the file of this run, if one is named.
pub fn add(seed: u64, calls: u64, pushes: u64) {
    if let Some(file) = env::var_os(FILE_VARIABLE) {
        add_to(Path::new(&file), seed, calls, pushes).expect("the summary can be written");
    }
}

/// Adds a line to a file: the seed, the calls compared, the pushes among them.
pub fn add_to(file: &Path, seed: u64, calls: u64, pushes: u64) -> io::Result<()> {
    let mut file = OpenOptions::new().create(true).append(true).open(file)?;
    file.write_all(format!("{seed} {calls} {pushes}\n").as_bytes())
}
