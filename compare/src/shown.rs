//! What a walk and a push of an area give and leave: the records by the
//! oracle, the refusals and the words by the texts of document 01 and, for the slim layout, of
//! document 02.

use crate::layout::{HEADER, Layout};
use crate::model::{After, bare, unchanged, used_records};
use crate::native::{Area, Outcome, Record};

/// The greatest number of octets of an area.
pub const MOST_OCTETS: usize = 65_535;

/// The greatest place past the last octet of an area.
pub const LAST_PLACE: u64 = 4_294_967_295;

/// An area, and what the oracle shows of it.
#[derive(Clone, Debug)]
pub struct Shown<'a> {
    /// The area.
    pub area: Area<'a>,
    /// The answer by which the area alone is refused.
    refusal: Option<u64>,
    /// The octets that complete entries cover.
    covered: u64,
    /// The records of a push onto an empty tape; none where the area is refused.
    records: Vec<Record>,
    /// How many of them are a walk's.
    walked: usize,
}

impl<'a> Shown<'a> {
    /// What the oracle shows of an area.
    pub fn of(area: Area<'a>) -> Self {
        match refusal(area) {
            None => Self::by_oracle(area),
            answer => Self {
                area,
                refusal: answer,
                covered: 0,
                records: Vec::new(),
                walked: 0,
            },
        }
    }

    /// The number of records that a push needs; 0 where the area is refused.
    pub fn needed_by_push(&self) -> usize {
        self.records.len()
    }

    /// The number of records that a walk needs; 0 where the area is refused.
    pub fn needed_by_walk(&self) -> usize {
        self.walked
    }

    /// What a walk gives and leaves.
    pub fn walk(&self, layout: Layout, tape: &[u64]) -> After {
        self.append(layout, tape, self.needed_by_walk())
    }

    /// What a push gives and leaves.
    pub fn push(&self, layout: Layout, tape: &[u64]) -> After {
        self.append(layout, tape, self.needed_by_push())
    }

    /// The records of a push onto a tape with so many before them.
    pub fn records_behind(&self, earlier: u64) -> impl Iterator<Item = Record> {
        self.records
            .iter()
            .map(move |record| moved(*record, earlier))
    }

    /// What the oracle shows of an area that is not refused.
    fn by_oracle(area: Area<'a>) -> Self {
        let registry = u8::try_from(area.registry).expect("a registry is 0 to 5");
        let base = u32::try_from(area.base).expect("a base is below 2^32");
        let push = oracle::push(registry, base, area.octets);
        assert!(push.records.len() <= bound(area.octets.len()), "{area}");
        let array = push.records.first();
        Self {
            area,
            refusal: None,
            covered: push.covered,
            walked: array.map_or(0, |array| array.past_children as usize),
            records: push.records.iter().map(of_oracle).collect(),
        }
    }

    /// What a call gives and leaves that appends the first `count` records.
    fn append(&self, layout: Layout, tape: &[u64], count: usize) -> After {
        if let Some(answer) = self.refusal {
            return unchanged(tape, bare(answer));
        }
        let Some(earlier) = used_records(layout, tape).map(|records| records.len()) else {
            return unchanged(tape, bare(4));
        };
        let needed = count as u64;
        if count > layout.room(tape.len()) - earlier {
            return unchanged(tape, outcome(5, 0, 0, needed));
        }
        let mut left = tape.to_vec();
        let free = &mut left[HEADER + layout.record_words() * earlier..];
        layout.write_all(self.records_behind(earlier as u64).take(count), free);
        left[0] += needed;
        After {
            outcome: outcome(0, self.covered, needed, needed),
            tape: left,
        }
    }
}

/// The numbers that a call gives back.
pub fn outcome(answer: u64, covered: u64, written: u64, needed: u64) -> Outcome {
    Outcome {
        answer,
        covered,
        written,
        needed,
    }
}

/// The answer by which an area is refused, whatever the tape.
fn refusal(area: Area<'_>) -> Option<u64> {
    let length = area.octets.len();
    if area.registry > u64::from(oracle::LAST_REGISTRY) {
        return Some(1);
    }
    if length > MOST_OCTETS {
        return Some(2);
    }
    match area.base.checked_add(length as u64) {
        Some(past) if past <= LAST_PLACE => None,
        _ => Some(3),
    }
}

/// The most records that an area of so many octets needs.
pub fn bound(octets: usize) -> usize {
    match octets {
        0 => 0,
        _ => 1 + 7 * octets / 3,
    }
}

/// One of the oracle's records, as a read gives it.
fn of_oracle(record: &oracle::Record) -> Record {
    let [label, shape, registry] = [record.label, record.shape, record.registry].map(u64::from);
    [
        label + 256 * shape + 65_536 * registry,
        record.first,
        record.past_last,
        record.number,
        record.first_child,
        record.past_children,
    ]
}

/// A record so many positions later: only a container holds positions.
fn moved(record: Record, positions: u64) -> Record {
    let [kind, first, past, number, first_child, end] = record;
    match kind.to_le_bytes()[1] {
        7 | 8 => {
            let children = [first_child + positions, end + positions];
            [kind, first, past, number, children[0], children[1]]
        }
        _ => record,
    }
}

#[cfg(test)]
mod tests;
