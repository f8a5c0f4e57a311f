//! The program: what it prints and how it ends.

mod source;

use std::io::Write;
use std::process::{Command, Output, Stdio};

/// Runs the program with these words and this standard input.
fn run(words: &[&str], input: &[u8]) -> Output {
    let mut child = Command::new(env!("CARGO_BIN_EXE_oracle"))
        .args(words)
        .stdin(Stdio::piped())
        .stdout(Stdio::piped())
        .stderr(Stdio::piped())
        .spawn()
        .expect("the program starts");
    let mut stdin = child.stdin.take().expect("standard input is a pipe");
    // A program that reads no input may end before it is written.
    let _ = stdin.write_all(input);
    drop(stdin);
    child.wait_with_output().expect("the program ends")
}

/// Asserts that a run printed this and ended well.
fn assert_prints(words: &[&str], input: &[u8], text: &str) {
    let output = run(words, input);
    assert_eq!(String::from_utf8_lossy(&output.stdout), text);
    assert_eq!(String::from_utf8_lossy(&output.stderr), "");
    assert_eq!(output.status.code(), Some(0));
}

/// Asserts that a run ended with status 2 and this on standard error alone.
fn assert_refuses(words: &[&str], input: &[u8], message: &str) {
    let output = run(words, input);
    assert_eq!(String::from_utf8_lossy(&output.stdout), "");
    assert!(String::from_utf8_lossy(&output.stderr).contains(message));
    assert_eq!(output.status.code(), Some(2));
}

/// The listing of document 01, section "Octets and what they become".
const LISTING: &str = "\
0 5 5 5
0 4 7 0 100 105 0 1 5
1 47 8 0 100 105 0 2 5
2 0 0 0 100 101 18 0 0
3 1 0 0 101 102 3 0 0
4 15 2 0 102 105 10 0 0
";

/// The case that gives the listing.
const METRIC: [u8; 14] = [0, 0, 0, 0, 100, 0, 0, 0, 5, 0x12, 3, 0, 0, 0x0A];

/// A case with an empty area.
const EMPTY: [u8; 9] = [5, 0, 0, 0, 100, 0, 0, 0, 0];

#[test]
fn push_prints_each_case_in_turn() {
    let batch = [&METRIC[..], &EMPTY, &METRIC].concat();
    let text = format!("{LISTING}0 0 0 0\n{LISTING}");
    assert_prints(&["push"], &batch, &text);
    assert_prints(&["push"], &[], "");
}

#[test]
fn mask_prints_each_case_in_turn() {
    let batch = [
        0, 0, 0, 13, 0, 0, 0, 2, 0xFF, 0xFF, // 13 bits of two octets
        0, 0, 0, 0, 0, 0, 0, 0, // no bits of no octets
        0, 0, 0, 16, 0, 0, 0, 2, 0x0A, 0xFF, // 16 bits of two octets
    ];
    assert_prints(&["mask"], &batch, "ff f8\n\n0a ff\n");
}

#[test]
fn names_prints_the_listing_of_names() {
    assert_prints(&["names"], &[], &source::listing());
}

#[test]
fn cases_prints_the_cases() {
    assert_prints(&["cases"], &[], &oracle::cases());
}

#[test]
fn replay_writes_the_list() {
    let output = run(&["replay"], &[]);
    assert!(output.stdout == oracle::replay());
    assert_eq!(String::from_utf8_lossy(&output.stderr), "");
    assert_eq!(output.status.code(), Some(0));
}

#[test]
fn a_cut_off_batch_is_refused() {
    let batch = [&METRIC[..], &EMPTY[..8]].concat();
    assert_refuses(&["push"], &batch, "the batch ends inside a case");
    assert_refuses(&["mask"], &[0, 0, 0], "the batch ends inside a case");
}

#[test]
fn a_registry_over_5_is_refused() {
    let mut batch = METRIC;
    batch[0] = 6;
    assert_refuses(&["push"], &batch, "registry 6 is not 0 to 5");
}

#[test]
fn other_words_print_the_usage() {
    for words in [&[][..], &["judge"], &["push", "names"], &["--help"]] {
        assert_refuses(words, &[], "usage: oracle push");
    }
}

#[test]
fn dump_prints_what_the_dump_program_is_to_print() {
    let input = [&METRIC[..5], &METRIC[9..]].concat();
    assert_prints(&["dump"], &input, LISTING);
    assert_prints(&["dump"], &[], "10 0 0 0\n");
}

/// The words that let a shell's script be judged; its `"$0"` is the program.
fn judge_script(script: &str) -> [&str; 5] {
    ["judge", "sh", "-c", script, env!("CARGO_BIN_EXE_oracle")]
}

/// Asserts that a script is judged to be wrong, with this on standard error alone.
fn assert_judged_wrong(script: &str, message: &str) {
    let output = run(&judge_script(script), &[]);
    assert_eq!(String::from_utf8_lossy(&output.stdout), "");
    let said = String::from_utf8_lossy(&output.stderr);
    assert!(said.contains(message), "of {script}: {said}");
    assert_eq!(output.status.code(), Some(1));
}

#[test]
fn judge_accepts_a_right_program_which_need_not_read_all() {
    let count = oracle::dump_inputs().len();
    let text = format!("{count} inputs, each printed as the Rust and documents 01 and 02 say\n");
    let program = env!("CARGO_BIN_EXE_oracle");
    assert_prints(&["judge", program, "dump"], &[], &text);
    let reads_774_octets = judge_script("head -c 774 | \"$0\" dump");
    assert_prints(&reads_774_octets, &[], &text);
}

#[test]
fn judge_refuses_a_wrong_program() {
    assert_judged_wrong("", "line 1 printed:  nothing");
    assert_judged_wrong("\"$0\" dump | head -n 9", "line 10 printed:  nothing");
    assert_judged_wrong("\"$0\" dump; echo", "line 2 printed:  \"\\n\"");
    assert_judged_wrong("\"$0\" dump; exit 3", "ended with status 3, not 0");
    assert_judged_wrong("kill -9 $$", "a signal ended the program");
}

#[test]
fn judge_says_that_a_program_cannot_be_run() {
    assert_refuses(&["judge", "./no such program"], &[], "./no such program: ");
}
