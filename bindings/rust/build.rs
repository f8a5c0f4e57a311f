//! Links the proved library: that of target/host at the top of the tree, or that of the folder that
//! a variable names.

use std::env;
use std::ffi::OsString;
use std::path::{Path, PathBuf};

/// The variable that names the folder of the archive.
const FOLDER_VARIABLE: &str = "WAKKEMOSUT_LIB";

fn main() {
    println!("cargo::rerun-if-env-changed={FOLDER_VARIABLE}");
    let package = env::var_os("CARGO_MANIFEST_DIR").expect("cargo names the package's folder");
    match folder(env::var_os(FOLDER_VARIABLE), Path::new(&package)) {
        Ok(folder) => link(&folder),
        Err(wrong) => println!("cargo::error={wrong}"),
    }
}

/// The folder of the archive: the one that is named, by its whole path, or target/host at the top
/// of the tree of this package.
pub fn folder(named: Option<OsString>, package: &Path) -> Result<PathBuf, String> {
    match named.filter(|named| !named.is_empty()).map(PathBuf::from) {
        None => Ok(top(package).join("target/host")),
        Some(named) if named.is_absolute() => Ok(named),
        Some(named) => Err(format!(
            "{FOLDER_VARIABLE} is `{}`, but must name the folder of the library by its whole path",
            named.display()
        )),
    }
}

/// The top of the tree of this package.
fn top(package: &Path) -> &Path {
    let top = package.ancestors().nth(2);
    top.expect("the package is in bindings/rust")
}

/// Tells cargo to link the archive of a folder, or that it is not there.
fn link(folder: &Path) {
    let archive = folder.join("libwakkemosut.a");
    println!("cargo::rerun-if-changed={}", archive.display());
    if archive.is_file() {
        println!("cargo::rustc-link-search=native={}", folder.display());
        println!("cargo::rustc-link-lib=static=wakkemosut");
    } else {
        println!("cargo::error={}", missing(&archive));
    }
}

/// Says that the archive is not there, and what to do.
pub fn missing(archive: &Path) -> String {
    format!(
        "{} is not there; run `tools/libwakkemosut` at the top of the tree that this crate stands \
         in, or name the folder of another one in {FOLDER_VARIABLE}",
        archive.display()
    )
}
