//! From which length on the library reads the values of a type.

use std::collections::HashMap;

use wakkemosut::{Label, Position, Refusal, Registry, Tape, most_records};

/// The position of the first record of a value, in an area of one entry: behind the array, the
/// object, the type and the length.
const FIRST_OF_VALUE: Position = Position(4);

/// The least lengths that were asked for so far.
#[derive(Default)]
pub struct LeastLengths {
    found: HashMap<(Registry, u8), Option<u8>>,
}

impl LeastLengths {
    /// The least octets of a value of this type that is read; nothing where none is.
    pub fn of(&mut self, registry: Registry, kind: u8) -> Result<Option<u8>, Refusal> {
        if let Some(least) = self.found.get(&(registry, kind)) {
            return Ok(*least);
        }
        let least = least_length(registry, kind)?;
        self.found.insert((registry, kind), least);
        Ok(least)
    }
}

/// The least octets of a value that is read, as the library shows by reading.
fn least_length(registry: Registry, kind: u8) -> Result<Option<u8>, Refusal> {
    for length in 0..=u8::MAX {
        if is_read(registry, kind, length)? {
            return Ok(Some(length));
        }
    }
    Ok(None)
}

/// Whether a value of so many zeros is read.
fn is_read(registry: Registry, kind: u8, length: u8) -> Result<bool, Refusal> {
    let mut area = vec![kind, length];
    area.resize(area.len() + usize::from(length), 0);
    let mut words = vec![0; Tape::words_for(most_records(area.len()))];
    let mut tape = Tape::cleared(&mut words)?;
    tape.push(registry, 0, &area)?;
    Ok(tape.read(FIRST_OF_VALUE)?.label != Label::Value)
}

#[cfg(test)]
mod tests {
    use super::*;

    /// Document 01's table: a registry, its types and their least lengths.
    const TABLE: [(Registry, &[(u8, u8)]); 6] = [
        (
            Registry::Neighbor,
            &[
                (3, 4),
                (4, 8),
                (6, 4),
                (8, 4),
                (9, 4),
                (10, 4),
                (11, 32),
                (12, 16),
                (13, 16),
                (18, 3),
                (31, 5),
                (32, 11),
                (33, 4),
                (34, 8),
                (35, 4),
                (36, 4),
                (37, 4),
                (38, 4),
                (39, 4),
                (43, 21),
                (44, 27),
            ],
        ),
        (
            Registry::Prefix,
            &[(1, 4), (2, 8), (3, 5), (4, 1), (5, 19), (11, 4), (12, 16)],
        ),
        (
            Registry::RouterCapability,
            &[
                (2, 1),
                (11, 4),
                (12, 16),
                (19, 0),
                (22, 1),
                (23, 0),
                (24, 1),
                (25, 2),
            ],
        ),
        (Registry::Binding, &[(1, 3), (3, 5)]),
        (Registry::Srv6Sid, &[(1, 4)]),
        (Registry::Unregistered, &[]),
    ];

    #[test]
    fn least_lengths_are_those_of_document_01() {
        let mut least = LeastLengths::default();
        for (registry, rows) in TABLE {
            for kind in 0..=u8::MAX {
                let row = rows.iter().find(|row| row.0 == kind);
                let expected = Ok(row.map(|row| row.1));
                assert_eq!(least.of(registry, kind), expected, "{registry} {kind}");
                assert_eq!(
                    least.of(registry, kind),
                    expected,
                    "{registry} {kind} again"
                );
            }
        }
    }
}
