//! The entries of an area, as far as the benchmark has to know them to make areas of its own.

use std::ops::Range;

/// Where the values of the complete entries of an area stand.
pub fn values(octets: &[u8]) -> Vec<Range<usize>> {
    let mut values = Vec::new();
    let mut at = 0;
    while let Some([_, length]) = octets.get(at..at + 2) {
        let value = at + 2..at + 2 + usize::from(*length);
        at = value.end;
        if at <= octets.len() {
            values.push(value);
        }
    }
    values
}

/// How many octets the complete entries of an area cover.
pub fn covered(octets: &[u8]) -> usize {
    values(octets).last().map_or(0, |value| value.end)
}

#[cfg(test)]
mod tests {
    use super::*;

    #[test]
    fn values_are_those_of_complete_entries() {
        let octets = [7, 2, 0, 0, 8, 0, 9, 1, 0, 9];
        assert_eq!(values(&octets), [2..4, 6..6, 8..9]);
        assert_eq!(covered(&octets), 9);
        assert_eq!(values(&octets[..8]), [2..4, 6..6]);
        assert_eq!(covered(&octets[..8]), 6);
    }

    #[test]
    fn nothing_is_covered_where_no_entry_is_complete() {
        assert_eq!(covered(&[]), 0);
        assert_eq!(covered(&[1]), 0);
        assert_eq!(covered(&[1, 2, 3]), 0);
    }
}
