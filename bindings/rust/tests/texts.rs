//! The texts of labels, shapes and registries, by the text of the Rust module and of document 01;
//! how they are shown, and which texts and numbers are read as them.

mod documents;

use std::error::Error;

use documents::{joined, labels, registries, shapes};
use wakkemosut::{Label, Registry, Shape};

/// The names out of names with their numbers.
fn names(named: Vec<(String, u64)>) -> Vec<String> {
    named.into_iter().map(|(name, _)| name).collect()
}

#[test]
fn labels_are_shown_by_the_names_of_the_rust_and_of_document_01() {
    let ours = Label::ALL.iter().map(|label| label.name());
    assert!(ours.eq(names(labels())));
}

#[test]
fn labels_47_to_56_are_shown_by_their_names() {
    let names = "sub_tlv range range_size range_sid msd msd_type msd_value bandwidth_element tag \
                 algorithm_element";
    let later = Label::ALL[47..].iter().map(|label| label.name());
    assert!(later.eq(names.split(' ')));
}

#[test]
fn registries_are_shown_by_the_names_of_document_01() {
    let ours = Registry::ALL.iter().map(|registry| registry.name());
    assert!(ours.eq(names(registries())));
}

#[test]
fn shapes_are_shown_by_the_names_of_document_01() {
    let ours = Shape::ALL.iter().map(|shape| shape.name());
    assert!(ours.eq(names(shapes())));
}

#[test]
fn what_is_shown_is_the_name() {
    for label in Label::ALL {
        assert_eq!(label.to_string(), label.name());
    }
    for shape in Shape::ALL {
        assert_eq!(shape.to_string(), shape.name());
    }
    for registry in Registry::ALL {
        assert_eq!(registry.to_string(), registry.name());
    }
}

#[test]
fn names_keep_to_width_and_alignment() {
    let (label, shape, registry) = (Label::Flags, Shape::Ipv4, Registry::Prefix);
    assert_eq!(
        format!("[{label:8}|{shape:8}|{registry:8}]"),
        "[flags   |IPv4    |Prefix  ]"
    );
    assert_eq!(
        format!("[{label:>8}|{shape:>8}|{registry:>8}]"),
        "[   flags|    IPv4|  Prefix]"
    );
    assert_eq!(
        format!("[{label:*^9}|{shape:-<5}|{registry:.>7}]"),
        "[**flags**|IPv4-|.Prefix]"
    );
    assert_eq!(
        format!("[{label:.3}|{shape:3}|{registry:3.4}]"),
        "[fla|IPv4|Pref]"
    );
}

#[test]
fn a_registry_is_read_by_its_number() {
    for (number, registry) in Registry::ALL.iter().enumerate() {
        assert_eq!(number.to_string().parse(), Ok(*registry));
        assert_eq!(format!("0{number}").parse(), Ok(*registry));
    }
}

#[test]
fn a_registry_is_read_by_its_name() {
    for (name, registry) in names(registries()).iter().zip(Registry::ALL) {
        for text in ["", "-", "_"].map(|by| joined(name, by)) {
            for text in [text.to_lowercase(), text.to_uppercase(), text] {
                assert_eq!(text.parse(), Ok(*registry), "{text}");
            }
        }
    }
    assert_eq!("router-capability".parse(), Ok(Registry::RouterCapability));
    assert_eq!("router_capability".parse(), Ok(Registry::RouterCapability));
    assert_eq!("rOUTERcAPABILITY".parse(), Ok(Registry::RouterCapability));
    assert_eq!("srv6-sid".parse(), Ok(Registry::Srv6Sid));
}

/// Asserts that these texts, with commas between them, are no registry, since none has this.
fn assert_no_registry(texts: &str, what: &str) {
    let expected = format!(
        "no registry has this {what}; there are 0 Neighbor, 1 Prefix, 2 RouterCapability, \
         3 Binding, 4 Srv6Sid, 5 Unregistered"
    );
    for text in texts.split(',') {
        let wrong = text.parse::<Registry>().expect_err(text);
        assert_eq!(wrong.to_string(), expected, "{text}");
    }
}

#[test]
fn other_numbers_are_no_registry() {
    assert_no_registry("6,7,10,50,255,256,4294967296", "number");
    assert_no_registry("18446744073709551616,184467440737095516160", "number");
}

#[test]
fn other_names_are_no_registry() {
    assert_no_registry(
        ", , 1,1 , prefix,prefix ,prefix\n,router capability",
        "name",
    );
    assert_no_registry("-1,+1,0x1,1.0,1-,-,_,--", "name");
    assert_no_registry(
        "router--capability,router-_capability,-prefix,prefix-,pre-fix",
        "name",
    );
    assert_no_registry(
        "neighbour,neighbo,neighborr,srv-6-sid,srv6,sid,pr\u{E9}fix",
        "name",
    );
}

#[test]
fn a_number_is_read_as_what_has_it() {
    for number in 0..=255u8 {
        assert_eq!(Label::try_from(number).ok(), Label::of(number.into()));
        assert_eq!(Shape::try_from(number).ok(), Shape::of(number.into()));
        assert_eq!(Registry::try_from(number).ok(), Registry::of(number.into()));
    }
    assert_eq!(Label::try_from(56u64), Ok(Label::AlgorithmElement));
    assert_eq!(Shape::try_from(8u64), Ok(Shape::Object));
    assert_eq!(Registry::try_from(5u64), Ok(Registry::Unregistered));
}

/// The text of an error.
fn text<Given>(answer: Result<Given, impl Error>) -> Option<String> {
    answer.err().map(|wrong| wrong.to_string())
}

#[test]
fn a_number_that_nothing_has_is_named() {
    let expected = |text: &str| Some(text.to_string());
    assert_eq!(
        text(Label::try_from(57u8)),
        expected("no label has the number 57")
    );
    assert_eq!(
        text(Shape::try_from(9u8)),
        expected("no shape has the number 9")
    );
    assert_eq!(
        text(Registry::try_from(6u8)),
        expected("no registry has the number 6")
    );
    // As an octet it would be label 0, shape 0 and registry 0.
    assert_eq!(
        text(Label::try_from(256u64)),
        expected("no label has the number 256")
    );
    assert_eq!(
        text(Shape::try_from(256u64)),
        expected("no shape has the number 256")
    );
    assert_eq!(
        text(Registry::try_from(256u64)),
        expected("no registry has the number 256")
    );
}
