//! The numbers of labels, shapes, registries and answers: this crate's and the C header's, by the
//! text of the Rust module and of document 01. For labels and answers the header's texts too.

mod documents;

use std::fmt::Debug;

use documents::{between, joined, labels, registries, shapes};
use wakkemosut::{
    LONGEST_AREA, LONGEST_NAME, Label, Layout, Refusal, Registry, Shape, Slim, Usual,
};

/// The C header.
const HEADER: &str = include_str!("../../../include/wakkemosut.h");

/// The names and numbers of an enum of the header, its cases without this prefix.
fn header(name: &str, prefix: &str) -> Vec<(String, u64)> {
    let body = between(HEADER, &format!("enum wakkemosut_{name} {{\n"), "};");
    let cases = body.lines().filter_map(|line| line.split_once(" = "));
    let numbered = cases.map(|(case, rest)| {
        let case = case.trim().strip_prefix(prefix).expect(case);
        let digits = rest.split(|c: char| !c.is_ascii_digit()).next();
        (case.into(), digits.unwrap().parse().expect(rest))
    });
    numbered.collect()
}

/// The names, numbers and texts of a list of the header, its names without this prefix.
fn header_list(name: &str, prefix: &str) -> Vec<(String, u64, String)> {
    let start = format!("#define WAKKEMOSUT_{name}(X) \\\n");
    let lines = between(HEADER, &start, "\n\n").lines();
    let items = lines.filter(|line| line.contains("X("));
    items
        .map(|line| header_item(between(line, "X(", "\")"), prefix))
        .collect()
}

/// The name, without this prefix, the number and the text of an item such as `NAME, 1, "text`.
fn header_item(item: &str, prefix: &str) -> (String, u64, String) {
    let (name, rest) = item.split_once(", ").expect(item);
    let (number, text) = rest.split_once(", \"").expect(item);
    let name = name.strip_prefix(prefix).expect(item);
    (name.into(), number.parse().expect(item), text.into())
}

/// A name such as `Ipv4TeRouterId` in the way of constants: `IPV4_TE_ROUTER_ID`.
fn constant_name(name: &str) -> String {
    joined(name, "_").to_uppercase()
}

/// The constants' name of a case, without what is inside it.
fn case_name(case: impl Debug) -> String {
    let case = format!("{case:?}");
    let name = case.split(' ').next();
    constant_name(name.expect("a case has a name"))
}

#[test]
fn labels_are_those_of_the_rust_and_of_document_01() {
    let expected = labels();
    let ours = Label::ALL.iter();
    let ours = ours.map(|one| (case_name(one).to_lowercase(), one.number()));
    assert_eq!(ours.collect::<Vec<_>>(), expected);
    let lines = expected.into_iter();
    let lines = lines.map(|(text, number)| (text.to_uppercase(), number, text));
    let lines: Vec<_> = lines.collect();
    assert_eq!(header_list("LABELS", "WAKKEMOSUT_LABEL_"), lines);
}

#[test]
fn shapes_are_those_of_document_01() {
    let shapes = shapes().into_iter();
    let expected = shapes.map(|(name, number)| (name.to_uppercase(), number));
    let expected: Vec<_> = expected.collect();
    let ours = Shape::ALL.iter();
    let ours: Vec<_> = ours.map(|one| (case_name(one), one.number())).collect();
    assert_eq!(ours, expected);
    assert_eq!(header("shape", "WAKKEMOSUT_SHAPE_"), expected);
}

#[test]
fn registries_are_those_of_document_01() {
    let registries = registries().into_iter();
    let expected = registries.map(|(name, number)| (constant_name(&name), number));
    let expected: Vec<_> = expected.collect();
    let ours = Registry::ALL.iter();
    let ours: Vec<_> = ours.map(|one| (case_name(one), one.number())).collect();
    assert_eq!(ours, expected);
    assert_eq!(header("registry", "WAKKEMOSUT_REGISTRY_"), expected);
}

#[test]
fn answers_of_the_header_are_those_of_the_wrapper() {
    let refusals = [
        Refusal::NoRegistry,
        Refusal::AreaTooLong,
        Refusal::BaseTooHigh,
        Refusal::NoTape,
        Refusal::NoRoom { needed: 0 },
        Refusal::PastCount,
        Refusal::CutsContainer,
        Refusal::NoRecord,
        Refusal::NameTooLong,
    ];
    let text = |one: Refusal| one.to_string().replace(" 0 records", " the records");
    let mut expected = vec![("DONE".to_string(), 0, "done".to_string())];
    expected.extend(refusals.map(|one| (case_name(one), one.number(), text(one))));
    let dump = "the dump program's input is too short or too long";
    expected.push(("DUMP_INPUT_LENGTH".into(), 10, dump.into()));
    assert_eq!(header_list("ANSWERS", "WAKKEMOSUT_"), expected);
}

#[test]
fn limits_of_the_header_are_those_of_the_wrapper() {
    let limit = |name: &str| between(HEADER, &format!("#define WAKKEMOSUT_{name} "), "\n");
    assert_eq!(limit("LONGEST_AREA"), LONGEST_AREA.to_string());
    assert_eq!(limit("LONGEST_NAME"), LONGEST_NAME.to_string());
    assert_eq!(limit("HIGHEST_END"), u32::MAX.to_string());
}

#[test]
fn records_of_the_header_are_as_wide_as_those_of_the_wrapper() {
    let words = header("tape", "WAKKEMOSUT_");
    let width = |name: &str| words.iter().find(|(case, _)| case == name).expect(name).1 as usize;
    assert_eq!(width("RECORD_WORDS"), Usual::RECORD_WORDS);
    assert_eq!(width("SLIM_RECORD_WORDS"), Slim::RECORD_WORDS);
}

#[test]
fn a_number_finds_its_case() {
    for label in Label::ALL {
        assert_eq!(Label::of(label.number()), Some(*label));
    }
    for shape in Shape::ALL {
        assert_eq!(Shape::of(shape.number()), Some(*shape));
    }
    for registry in Registry::ALL {
        assert_eq!(Registry::of(registry.number()), Some(*registry));
    }
    for number in [57, 256, 1 << 32, u64::MAX] {
        assert_eq!(Label::of(number), None);
        assert_eq!(Shape::of(number), None);
        assert_eq!(Registry::of(number), None);
    }
    assert_eq!((Shape::of(9), Registry::of(6)), (None, None));
}
