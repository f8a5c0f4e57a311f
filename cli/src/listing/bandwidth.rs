//! Bandwidths.

/// The prefixes of units, each a thousand times the one before.
const PREFIXES: [&str; 7] = ["", "k", "M", "G", "T", "P", "E"];

/// The digits that a prefix takes.
const STEP: usize = 3;

/// The most digits behind the point that a single times 8 has.
const MOST_DECIMALS: usize = 146;

/// The most digits behind the point of 1 bit/s and more.
const DECIMALS_FROM_1: usize = 20;

/// How many digits a number is shorter that is worth to be said besides.
const ROUNDER: usize = 3;

/// The bandwidth that 32 bits say, an IEEE single in bytes a second: in bit/s, every digit exact.
/// Not every round number is a single: one that this is the nearest single to is said too.
pub fn text(bits: u32) -> String {
    let bytes = f32::from_bits(bits);
    match bytes {
        _ if bytes.is_nan() => format!("not a number (0x{bits:08X})"),
        f32::INFINITY => format!("infinite (0x{bits:08X})"),
        _ if bytes.is_sign_negative() => format!("negative (0x{bits:08X})"),
        _ => finite(bytes).unwrap_or_else(|| format!("less than 1 bit/s (0x{bits:08X})")),
    }
}

/// A bandwidth of so many bytes a second; nothing where it has too many digits behind the point.
fn finite(bytes: f32) -> Option<String> {
    let decimal = format!("{:.MOST_DECIMALS$}", f64::from(bytes) * 8.0);
    let (whole, decimals) = digits(&decimal);
    if whole == "0" && decimals.len() > DECIMALS_FROM_1 {
        return None;
    }
    let exact = with_prefix(whole, decimals);
    let nearest = (bytes * 8.0).to_string();
    let (whole, decimals) = digits(&nearest);
    let nearest = with_prefix(whole, decimals);
    if nearest.len() + ROUNDER <= exact.len() && (bytes * 8.0).is_finite() {
        return Some(format!("{exact} (nearest to {nearest})"));
    }
    Some(exact)
}

/// The digits of a decimal number before and behind the point, without zeros at their end.
fn digits(decimal: &str) -> (&str, &str) {
    let (whole, decimals) = decimal.split_once('.').unwrap_or((decimal, ""));
    (whole, decimals.trim_end_matches('0'))
}

/// A number of bit/s with the prefix that leaves one to three digits before the point.
fn with_prefix(whole: &str, decimals: &str) -> String {
    let steps = (whole.len().saturating_sub(1) / STEP).min(PREFIXES.len() - 1);
    let (front, moved) = whole.split_at(whole.len() - steps * STEP);
    let behind = format!("{moved}{decimals}");
    let prefix = PREFIXES[steps];
    match behind.trim_end_matches('0') {
        "" => format!("{front} {prefix}bit/s"),
        behind => format!("{front}.{behind} {prefix}bit/s"),
    }
}

#[cfg(test)]
mod tests {
    use super::*;

    /// The text of a bandwidth of so many bytes a second.
    fn of(bytes: f32) -> String {
        text(bytes.to_bits())
    }

    #[test]
    fn bandwidths_of_links_have_their_prefix() {
        for (bytes, expected) in [
            (0.0, "0 bit/s"),
            (1.0, "8 bit/s"),
            (0.0625, "0.5 bit/s"),
            (124.875, "999 bit/s"),
            (125.0, "1 kbit/s"),
            (125.0625, "1.0005 kbit/s"),
            (156_250.0, "1.25 Mbit/s"),
            (1_250_000.0, "10 Mbit/s"),
            (125_000_000.0, "1 Gbit/s"),
            (137_500_000.0, "1.1 Gbit/s"),
            (1_250_000_000.0, "10 Gbit/s"),
            (5_000_000_000.0, "40 Gbit/s"),
            (10_000_000_000.0, "80 Gbit/s"),
        ] {
            assert_eq!(of(bytes), expected);
        }
    }

    #[test]
    fn no_digit_is_invented() {
        // 12,345,679 bytes fit a single.
        assert_eq!(of(12_345_679.0), "98.765432 Mbit/s");
        // The nearest single to 1.1 is 9227469 / 2^23, times 8 that is 9227469 / 2^20.
        assert_eq!(
            of(1.1),
            "8.80000019073486328125 bit/s (nearest to 8.8 bit/s)"
        );
        // 100 Gbit/s are 48828125 x 2^8 bytes, over 24 bits; the nearest single is 12207031 x 2^10.
        let shown = "99.999997952 Gbit/s (nearest to 100 Gbit/s)";
        assert_eq!(of(12_500_000_000.0), shown);
        // 2^97 x 8 is 2^100; singles there are 2^77 apart.
        let shown = "1267650600228.229401496703205376 Ebit/s (nearest to 1267650600000 Ebit/s)";
        assert_eq!(of(2f32.powi(97)), shown);
    }

    #[test]
    fn the_bits_of_rfc_5305_are_bytes() {
        assert_eq!(text(0x4E95_02F9), "10 Gbit/s");
        assert_eq!(text(0x4CEE_6B28), "1 Gbit/s");
        assert_eq!(text(0x3F80_0000), "8 bit/s");
    }

    #[test]
    fn what_is_no_bandwidth_is_said() {
        assert_eq!(text(0x7F80_0000), "infinite (0x7F800000)");
        assert_eq!(text(0xFF80_0000), "negative (0xFF800000)");
        assert_eq!(text(0xBF80_0000), "negative (0xBF800000)");
        assert_eq!(text(0x8000_0000), "negative (0x80000000)");
        assert_eq!(text(0x7FC0_0000), "not a number (0x7FC00000)");
        assert_eq!(text(0xFFFF_FFFF), "not a number (0xFFFFFFFF)");
        assert_eq!(text(0x7F80_0001), "not a number (0x7F800001)");
    }

    #[test]
    fn the_least_and_the_greatest_are_shown() {
        assert_eq!(text(1), "less than 1 bit/s (0x00000001)");
        // (2^24 - 1) x 2^104 bytes are 2^131 - 2^107 bits.
        assert_eq!(
            text(0x7F7F_FFFF),
            "2722258773108230878493.63346787613540352 Ebit/s"
        );
    }
}
