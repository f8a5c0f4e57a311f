//! Where the build script looks for the library, and what it says where it is not there.

#[allow(dead_code)]
#[path = "../build.rs"]
mod build_script;

use std::ffi::OsString;
use std::path::{Path, PathBuf};

use build_script::{folder, missing};

/// The folder that the script takes for a package of this tree when the variable is this.
fn named(variable: Option<&str>) -> Result<PathBuf, String> {
    folder(
        variable.map(OsString::from),
        Path::new("/tree/bindings/rust"),
    )
}

#[test]
fn a_whole_path_names_the_folder() {
    assert_eq!(named(Some("/other/host")), Ok("/other/host".into()));
}

#[test]
fn without_a_name_it_is_that_of_the_tree() {
    assert_eq!(named(None), Ok("/tree/target/host".into()));
    assert_eq!(named(Some("")), Ok("/tree/target/host".into()));
}

#[test]
fn a_path_from_elsewhere_is_refused_by_its_name() {
    for relative in ["target/host", ".", "../target/host", " ", "~/host"] {
        let refused = named(Some(relative)).unwrap_err();
        assert!(
            refused.starts_with(&format!("WAKKEMOSUT_LIB is `{relative}`")),
            "{refused}"
        );
        assert!(refused.contains("whole path"), "{refused}");
    }
}

#[test]
fn what_builds_a_missing_library_is_named() {
    let text = missing(Path::new("/tree/target/host/libwakkemosut.a"));
    for part in [
        "/tree/target/host/libwakkemosut.a",
        "tools/libwakkemosut",
        "WAKKEMOSUT_LIB",
    ] {
        assert!(text.contains(part), "{text}");
    }
}
