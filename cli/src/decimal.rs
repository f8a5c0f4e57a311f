//! Numbers in decimal digits, of any size.

/// A number of any size.
#[derive(Clone, Debug, PartialEq, Eq)]
pub struct Decimal {
    /// Its digits, without zeros in front.
    pub digits: String,
    /// Its value; the greatest of 64 bits where it does not fit these.
    pub value: u64,
}

impl Decimal {
    /// The number that a word of decimal digits, and nothing else, says.
    pub fn of(word: &str) -> Option<Self> {
        if word.is_empty() || !word.bytes().all(|byte| byte.is_ascii_digit()) {
            return None;
        }
        let digits = match word.trim_start_matches('0') {
            "" => "0",
            digits => digits,
        };
        Some(Self {
            digits: digits.into(),
            value: digits.parse().unwrap_or(u64::MAX),
        })
    }
}

#[cfg(test)]
mod tests {
    use super::*;

    /// The digits and the value of the number that a word says.
    fn read(word: &str) -> Option<(String, u64)> {
        Decimal::of(word).map(|number| (number.digits, number.value))
    }

    #[test]
    fn zeros_in_front_mean_nothing() {
        for (word, digits, value) in [("010", "10", 10), ("0899", "899", 899), ("000", "0", 0)] {
            assert_eq!(read(word), Some((digits.into(), value)));
        }
    }

    #[test]
    fn a_number_of_any_size_is_taken() {
        let greatest = "18446744073709551615";
        assert_eq!(read(greatest), Some((greatest.into(), u64::MAX)));
        let over = "18446744073709551616";
        assert_eq!(read(over), Some((over.into(), u64::MAX)));
        let long = "9".repeat(400);
        assert_eq!(read(&long), Some((long.clone(), u64::MAX)));
    }

    #[test]
    fn anything_but_digits_is_none() {
        for word in [
            "", "0x64", "-1", "+1", "1e3", "1_000", " 1", "1 ", "1.0", "٣", "ten",
        ] {
            assert_eq!(read(word), None, "{word:?}");
        }
    }
}
