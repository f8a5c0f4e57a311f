//! The table that is printed, in Markdown.

use std::fmt;

use wakkemosut::Tape;

use crate::loads::Load;
use crate::timing::Times;

/// The lines above the rows.
pub const HEAD: &str = "
| areas | octets | records | Rust, ns a push | ours, ns a push | Rust / ours \
| slim, ns a push | Rust / slim | stores of 8, ns | stores of 16, ns | tape, octets | slim tape, octets |
|---|---|---|---|---|---|---|---|---|---|---|---|";

/// One row of the table.
pub struct Row<'areas> {
    name: &'areas str,
    octets: usize,
    records: usize,
    times: Times,
}

impl<'areas> Row<'areas> {
    /// The row of a load with these times; octets and records are those of its areas, each once.
    pub fn of(load: &Load<'areas>, times: Times) -> Self {
        let octets = load.areas.iter().map(|area| area.octets.len());
        let records = load.areas.iter().map(|area| area.records);
        Self {
            name: load.name,
            octets: octets.sum(),
            records: records.sum(),
            times,
        }
    }

    /// The times, and how much longer the Rust takes than each of ours.
    fn times(&self) -> String {
        let [rust, ours, slim, ..] = self.times;
        let (ratio, slim_ratio) = (rust / ours, rust / slim);
        format!("{rust:.0} | {ours:.0} | {ratio:.2} | {slim:.0} | {slim_ratio:.2}")
    }

    /// The times of the bare stores.
    fn limits(&self) -> String {
        let [.., stores_of_8, stores_of_16] = self.times;
        [stores_of_8, stores_of_16].map(nanoseconds).join(" | ")
    }

    /// The octets of a tape with room for the records, in each layout.
    fn memory(&self) -> String {
        let tapes = [Tape::words_for, Tape::slim_words_for];
        let [usual, slim] = tapes.map(|words_for| size_of::<u64>() * words_for(self.records));
        format!("{usual} | {slim}")
    }
}

impl fmt::Display for Row<'_> {
    fn fmt(&self, out: &mut fmt::Formatter<'_>) -> fmt::Result {
        let (name, octets, records) = (self.name, self.octets, self.records);
        let (times, limits, memory) = (self.times(), self.limits(), self.memory());
        write!(
            out,
            "| {name} | {octets} | {records} | {times} | {limits} | {memory} |"
        )
    }
}

/// A time of a few nanoseconds with a tenth, a longer one without.
fn nanoseconds(time: f64) -> String {
    let places = usize::from(time < 9.95);
    format!("{time:.places$}")
}

#[cfg(test)]
mod tests {
    use super::*;
    use crate::areas::areas;
    use crate::loads::loads;

    /// Some times.
    const TIMES: Times = [30.0, 20.0, 24.0, 9.96, 5.04];

    #[test]
    fn a_row_has_the_octets_and_records_of_each_area_once() {
        let areas = areas();
        let loads = loads(&areas, 16);
        let row = |load| Row::of(load, TIMES);
        let alone = row(&loads[0]);
        assert_eq!((alone.octets, alone.records), (5, 5));
        let in_turn = row(&loads[areas.len()]);
        assert_eq!((in_turn.octets, in_turn.records), (1108, 588));
    }

    #[test]
    fn a_row_has_a_cell_for_each_column() {
        let row = Row {
            name: "a name",
            octets: 7,
            records: 5,
            times: TIMES,
        };
        let row = row.to_string();
        assert_eq!(
            row,
            "| a name | 7 | 5 | 30 | 20 | 1.50 | 24 | 1.25 | 10 | 5.0 | 272 | 192 |"
        );
        let cells = |line: &str| line.matches('|').count();
        let lines: Vec<&str> = HEAD.lines().skip(1).collect();
        assert_eq!(lines.len(), 2);
        assert!(lines.iter().all(|line| cells(line) == cells(&row)));
    }
}
