//! The summary of a run.

use std::fs;
use std::path::Path;

use compare::summary::add_to;

#[test]
fn each_test_adds_a_line() {
    let file = Path::new(env!("CARGO_TARGET_TMPDIR")).join("summary");
    fs::write(&file, "").expect("a file can be written");
    for (calls, pushes) in [(100, 40), (7, 0)] {
        add_to(&file, 20_260_101, calls, pushes).expect("a line can be added");
    }
    let text = fs::read_to_string(&file).expect("the file can be read");
    assert_eq!(text, "20260101 100 40\n20260101 7 0\n");
}
