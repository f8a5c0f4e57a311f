//! What a push does, without noise: its instructions and stores, and the functions that are behind
//! it.

use crate::areas::Area;
use crate::callgrind::{self, Count};
use crate::counted::counted_areas;
use crate::numbers::grouped;
use crate::pushers::COUNT;
use crate::symbols::{self, Object};

/// The lines above the rows of counts.
const HEAD: &str = "
instructions; stores of one push

| areas | octets | records | Rust | ours | slim | stores of 8 | stores of 16 |
|---|---|---|---|---|---|---|---|";

/// The lines above the functions.
const FUNCTIONS_HEAD: &str = "
functions of the library beside those that are exported, and the octets of their code

| object | function | octets |
|---|---|---|";

/// Prints the table of counts, or why there is none; then the library's functions.
pub fn print() {
    let areas = counted_areas();
    match callgrind::counts(areas.len() * COUNT) {
        Ok(counts) => {
            println!("{HEAD}");
            let rows = areas.iter().zip(counts.chunks(COUNT));
            rows.for_each(|(area, counts)| println!("{}", row(area, counts)));
        }
        Err(why) => println!("no instructions and stores are counted: {why}"),
    }
    match symbols::objects() {
        Ok(objects) => {
            println!("{FUNCTIONS_HEAD}");
            objects
                .iter()
                .flat_map(rows)
                .for_each(|row| println!("{row}"));
        }
        Err(why) => println!("the library's functions are not known: {why}"),
    }
}

/// The row of an area, with what each that pushes does.
fn row(area: &Area, counts: &[Count]) -> String {
    let cell = |count: &Count| {
        let (instructions, stores) = (grouped(count.instructions), grouped(count.stores));
        format!("{instructions}; {stores}")
    };
    let cells: Vec<String> = counts.iter().map(cell).collect();
    let (name, cells) = (&area.name, cells.join(" | "));
    let (octets, records) = (grouped(area.octets.len()), grouped(area.records));
    format!("| {name} | {octets} | {records} | {cells} |")
}

/// The rows of an object. Its largest function is the cycle of walker, entry and decoders.
fn rows(object: &Object) -> Vec<String> {
    let functions = object.inner.iter().enumerate();
    let row = |(at, function): (usize, &symbols::Function)| {
        let remark = if at == 0 { " (the cycle)" } else { "" };
        let (name, octets) = (&function.name, grouped(function.octets));
        format!("| {} | {name}{remark} | {octets} |", object.name)
    };
    functions.map(row).collect()
}

#[cfg(test)]
mod tests {
    use super::*;
    use crate::symbols::Function;

    #[test]
    fn a_row_has_a_cell_for_each_column() {
        let area = &counted_areas()[4];
        let count = Count {
            instructions: 1_000,
            stores: 84,
        };
        let row = row(area, &[count; COUNT]);
        let cells = |line: &str| line.matches('|').count();
        let head = HEAD.lines().last().expect("it has lines");
        assert_eq!(cells(&row), cells(head));
        assert!(row.contains(" | 65,535 | 24,930 | 1,000; 84 | "), "{row}");
    }

    #[test]
    fn the_largest_function_of_an_object_is_the_cycle() {
        let function = |name: &str, octets| Function {
            name: name.into(),
            octets,
        };
        let object = Object {
            name: "capi".into(),
            inner: vec![function("walk::walk", 7_320), function("split", 312)],
        };
        let expected = [
            "| capi | walk::walk (the cycle) | 7,320 |",
            "| capi | split | 312 |",
        ];
        assert_eq!(rows(&object), expected);
    }
}
