//! The judge: it accepts a right printer, finds every wrong one, and says where.

use std::sync::LazyLock;

use oracle::judge::{Difference, Printed, first_difference, run};
use oracle::{dump, dump_inputs, dumped, push};

/// All inputs.
static INPUTS: LazyLock<Vec<Vec<u8>>> = LazyLock::new(dump_inputs);

/// What the judge finds in a printer that ends with this status.
fn found(printer: impl Fn(&[u8]) -> String, status: Option<i32>) -> Option<Difference> {
    let printer = |input: &[u8]| {
        let text = printer(input).into_bytes();
        Ok(Printed { text, status })
    };
    first_difference(&INPUTS, printer).expect("a made-up printer prints")
}

/// Asserts that the judge finds a difference in a printer.
fn assert_found(what: &str, printer: impl Fn(&[u8]) -> String) {
    assert!(found(printer, Some(0)).is_some(), "not found: {what}");
}

/// What a dump program prints, in numbers: the outcome, then the records.
struct Listing {
    outcome: Vec<u64>,
    records: Vec<Vec<u64>>,
}

impl Listing {
    /// What is to be printed for an input.
    fn right(input: &[u8]) -> Self {
        let text = dumped(input);
        let numbers = |line: &str| line.split(' ').map(|word| word.parse().unwrap()).collect();
        let mut lines = text.lines().map(numbers);
        let outcome = lines.next().expect("there is a first line");
        let records = lines.collect();
        Self { outcome, records }
    }

    /// The text of the lines.
    fn text(&self) -> String {
        let lines = std::iter::once(&self.outcome).chain(&self.records);
        let words = |line: &Vec<u64>| line.iter().map(u64::to_string).collect::<Vec<_>>();
        lines.map(|line| words(line).join(" ") + "\n").collect()
    }
}

/// A printer that does something to what it is to print.
fn but(change: impl Fn(&mut Listing)) -> impl Fn(&[u8]) -> String {
    move |input| {
        let mut listing = Listing::right(input);
        change(&mut listing);
        listing.text()
    }
}

/// A made-up dump program: its limits, and the order of its checks.
#[derive(Clone, Copy, Debug)]
struct Program {
    least_input: usize,
    most_in_area: usize,
    last_registry: u8,
    greatest_end: u64,
    order: [u8; 3],
}

/// The program of document 01.
const RIGHT: Program = Program {
    least_input: 5,
    most_in_area: 768,
    last_registry: 5,
    greatest_end: 4_294_967_295,
    order: [10, 1, 3],
};

impl Program {
    /// What the program prints for an input; octets that are not there are zeros.
    fn print(&self, input: &[u8]) -> String {
        let mut octets = input.to_vec();
        octets.resize(input.len().max(5), 0);
        let (&[registry, ref base @ ..], area) = octets.split_first_chunk::<5>().unwrap();
        let base = u32::from_be_bytes(*base);
        let refuses = |answer: &u8| match answer {
            1 => registry > self.last_registry,
            3 => u64::from(base) + area.len() as u64 > self.greatest_end,
            _ => input.len() < self.least_input || area.len() > self.most_in_area,
        };
        match self.order.iter().copied().find(refuses) {
            Some(answer) => format!("{answer} 0 0 0\n"),
            None => dump(&push(registry.min(5), base, area)),
        }
    }
}

#[test]
fn a_right_printer_is_accepted() {
    assert_eq!(found(dumped, Some(0)), None);
    assert_eq!(found(|input| Listing::right(input).text(), Some(0)), None);
    assert_eq!(found(|input| RIGHT.print(input), Some(0)), None);
}

#[test]
fn three_slips_are_found() {
    let labels = |listing: &mut Listing| listing.records.iter_mut().for_each(|one| one[1] %= 48);
    let words = |listing: &mut Listing| {
        let words = listing.records.iter_mut().flat_map(|one| &mut one[4..]);
        words.for_each(|word| *word %= 65_536);
    };
    let counts = |listing: &mut Listing| listing.records.truncate(listing.records.len() % 9);
    assert_found("label % 48", but(labels));
    assert_found("words % 65536", but(words));
    assert_found("written % 9 records", but(counts));
}

#[test]
fn a_column_that_is_wrong_for_its_greatest_number_only_is_found() {
    let place = 4_294_967_295;
    let greatest = [1_792, 56, 8, 5, place, place, u64::MAX, 1_787, 1_793];
    for (column, greatest) in greatest.into_iter().enumerate() {
        let change = |listing: &mut Listing| {
            let columns = listing.records.iter_mut().map(|one| &mut one[column]);
            columns.for_each(|number| *number %= greatest);
        };
        assert_found(&format!("column {column} % {greatest}"), but(change));
    }
}

#[test]
fn a_column_of_the_outcome_that_is_wrong_for_its_greatest_number_only_is_found() {
    for (column, greatest) in [10, 768, 1_793, 1_793].into_iter().enumerate() {
        let change = |listing: &mut Listing| listing.outcome[column] %= greatest;
        assert_found(&format!("outcome {column} % {greatest}"), but(change));
    }
}

#[test]
fn a_registry_that_is_always_the_first_ones_is_found() {
    let change = |listing: &mut Listing| {
        let first = listing.records.first().map(|one| one[3]);
        let columns = listing.records.iter_mut().map(|one| &mut one[3]);
        columns.for_each(|registry| *registry = first.unwrap_or_default());
    };
    assert_found("the first one's registry", but(change));
}

#[test]
fn records_that_are_missing_are_found() {
    assert_found("no record", but(|listing| listing.records.clear()));
    assert_found("1,194", but(|listing| listing.records.truncate(1_194)));
    assert_found("not the last", but(|listing| drop(listing.records.pop())));
}

#[test]
fn records_that_are_too_many_are_found() {
    let after_a_refusal = |listing: &mut Listing| {
        if listing.outcome[0] != 0 {
            listing.records.push(vec![0; 9]);
        }
    };
    assert_found("a record after a refusal", but(after_a_refusal));
    let after_none = |listing: &mut Listing| {
        if listing.records.is_empty() && listing.outcome[0] == 0 {
            listing.records.push(vec![0; 9]);
        }
    };
    assert_found("a record of an empty area", but(after_none));
}

#[test]
fn two_columns_the_other_way_round_are_found() {
    for column in 1..9 {
        let change = |listing: &mut Listing| {
            let records = listing.records.iter_mut();
            records.for_each(|one| one.swap(column - 1, column));
        };
        assert_found(&format!("columns {} and {column}", column - 1), but(change));
    }
}

/// Asserts that the judge finds a difference in a program with another limit.
fn assert_limit_found(what: &str, change: impl Fn(&mut Program)) {
    let mut program = RIGHT;
    change(&mut program);
    assert_found(what, |input| program.print(input));
}

#[test]
fn a_limit_that_is_off_by_one_is_found() {
    assert_limit_found("4 octets accepted", |program| program.least_input = 4);
    assert_limit_found("5 octets refused", |program| program.least_input = 6);
    assert_limit_found("768 octets refused", |program| program.most_in_area = 767);
    assert_limit_found("769 octets accepted", |program| program.most_in_area = 769);
    assert_limit_found("registry 5 refused", |program| program.last_registry = 4);
    assert_limit_found("registry 6 accepted", |program| program.last_registry = 6);
    assert_limit_found("the greatest end refused", |program| {
        program.greatest_end -= 1
    });
    assert_limit_found("one more accepted", |program| program.greatest_end += 1);
}

#[test]
fn checks_in_another_order_are_found() {
    for order in [[1, 10, 3], [1, 3, 10], [3, 1, 10], [3, 10, 1], [10, 3, 1]] {
        let program = Program { order, ..RIGHT };
        assert_found(&format!("{order:?}"), |input| program.print(input));
    }
}

#[test]
fn a_check_that_is_left_out_is_found() {
    for order in [[1, 1, 3], [10, 10, 3], [10, 1, 1]] {
        let program = Program { order, ..RIGHT };
        assert_found(&format!("{order:?}"), |input| program.print(input));
    }
}

#[test]
fn an_input_that_is_read_wrong_is_found() {
    let cut_off = |input: &[u8]| dumped(&input[..input.len().min(773)]);
    assert_found("no octet after the area's 768", cut_off);
    let counted = |input: &[u8]| dumped(&input[..input.len() % 65_536]);
    assert_found("a length of two octets", counted);
    let turned = |input: &[u8]| {
        let mut octets = input.to_vec();
        octets.get_mut(1..5).unwrap_or_default().reverse();
        dumped(&octets)
    };
    assert_found("a base from its end on", turned);
}

#[test]
fn another_text_of_the_same_numbers_is_found() {
    assert_found("no end of the last line", |input| {
        dumped(input).trim_end().into()
    });
    assert_found("an empty line", |input| dumped(input) + "\n");
    assert_found("two spaces", |input| dumped(input).replace(' ', "  "));
    assert_found("a space before the end", |input| {
        dumped(input).replace('\n', " \n")
    });
    assert_found("nothing", |_| String::new());
}

#[test]
fn another_ending_is_found() {
    assert!(found(dumped, Some(1)).is_some());
    assert!(found(dumped, None).is_some());
}

/// What the judge says of a text that is printed for an input, and this status.
fn said(input: &[u8], text: &str, status: Option<i32>) -> String {
    let printed = Printed {
        text: text.into(),
        status,
    };
    let found = first_difference(&[input.to_vec()], |_| Ok(printed.clone()));
    found.unwrap().expect("the text is wrong").to_string()
}

#[test]
fn the_message_has_the_input_and_the_first_line_that_differs() {
    let message = "\
input of 6 octets: 00 00 00 00 64 12
line 2 expected: \"0 4 7 0 100 100 0 1 1\\n\"
line 2 printed:  \"0 4 7 0 100 101 0 1 1\\n\"";
    let text = "0 0 2 2\n0 4 7 0 100 101 0 1 1\n1 3 6 0 100 101 0 0 0\n";
    assert_eq!(said(&[0, 0, 0, 0, 100, 0x12], text, Some(0)), message);
}

#[test]
fn the_message_is_short() {
    let message = said(&[0; 70_000], &"7".repeat(70_000), Some(0));
    let [input, expected, printed] = message.lines().collect::<Vec<_>>()[..] else {
        panic!("three lines wanted: {message}");
    };
    assert_eq!(
        input,
        format!("input of 70000 octets:{} ..", " 00".repeat(60))
    );
    assert_eq!(expected, "line 1 expected: \"10 0 0 0\\n\"");
    assert_eq!(
        printed,
        format!("line 1 printed:  \"{}\" ..", "7".repeat(60))
    );
}

#[test]
fn the_message_tells_how_the_program_ended() {
    let right = "10 0 0 0\n";
    let failed = "input of 0 octets: \nthe program ended with status 3, not 0";
    assert_eq!(said(&[], right, Some(3)), failed);
    let killed = "input of 0 octets: \nline 1 expected: \"10 0 0 0\\n\"\n\
        line 1 printed:  nothing\na signal ended the program";
    assert_eq!(said(&[], "", None), killed);
}

#[test]
fn a_program_may_print_more_than_a_pipe_holds_before_it_has_read_all() {
    let octets = vec![0x5A; 300_000];
    let echo = run("cat".as_ref(), &[], &octets).expect("cat is run");
    assert!(echo.text == octets);
    assert_eq!(echo.status, Some(0));
}

#[test]
fn a_program_need_not_read_its_input() {
    let silent = run("true".as_ref(), &[], &[0x5A; 300_000]).expect("true is run");
    let ended_well = Printed {
        text: vec![],
        status: Some(0),
    };
    assert_eq!(silent, ended_well);
}
