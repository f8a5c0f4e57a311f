//! Flags with their letters.

use wakkemosut::Registry;

/// The letters of the flags of a type, from the highest bit down; `-` has no letter.
const LETTERS: [(Registry, u8, &str); 9] = [
    // RFC 8667, section 2.2.1, Adj-SID
    (Registry::Neighbor, 31, "FBVLSP"),
    // RFC 8667, section 2.2.2, LAN-Adj-SID
    (Registry::Neighbor, 32, "FBVLSP"),
    // RFC 9352, section 8.1, SRv6 End.X SID
    (Registry::Neighbor, 43, "BSP"),
    // RFC 9352, section 8.2, SRv6 LAN End.X SID
    (Registry::Neighbor, 44, "BSP"),
    // RFC 8667, section 2.1.1, Prefix-SID
    (Registry::Prefix, 3, "RNPEVL"),
    // RFC 7794, section 2.1; E of RFC 9088, A of RFC 9352, prefix attributes
    (Registry::Prefix, 4, "XRNEA"),
    // RFC 8667, section 3.1, SR-Capabilities
    (Registry::RouterCapability, 2, "IV"),
    // RFC 9352, section 2, SRv6 Capabilities, 16 bits
    (Registry::RouterCapability, 25, "-O"),
    // RFC 8667, section 2.1.1, Prefix-SID
    (Registry::Binding, 3, "RNPEVL"),
];

/// Flags of so many bits in hex, and the letters of those that are set; bits without a letter are
/// shown apart.
pub fn text(registry: Registry, kind: u8, flags: u64, bits: usize) -> String {
    let width = bits / 4;
    let (mut letters, mut others) = (Vec::new(), 0);
    for at in (0..bits).filter(|at| flags >> (bits - 1 - at) & 1 == 1) {
        match letter(registry, kind, at) {
            Some(letter) => letters.push(letter),
            None => others |= 1 << (bits - 1 - at),
        }
    }
    let set = match (&letters.join(" ")[..], others) {
        ("", 0) => String::new(),
        ("", _) => " (no letters)".into(),
        (letters, 0) => format!(" ({letters})"),
        (letters, others) => format!(" ({letters}, and 0x{others:0width$X})"),
    };
    format!("0x{flags:0width$X}{set}")
}

/// The letter of a bit, counted from the highest, if it has one.
fn letter(registry: Registry, kind: u8, at: usize) -> Option<&'static str> {
    let mut rows = LETTERS.iter();
    let (_, _, letters) = rows.find(|row| (row.0, row.1) == (registry, kind))?;
    letters.get(at..at + 1).filter(|letter| *letter != "-")
}

#[cfg(test)]
mod tests {
    use super::*;

    #[test]
    fn each_bit_has_the_letter_of_its_rfc() {
        for (registry, kind, letters) in [
            (Registry::Neighbor, 31, "80=F 40=B 20=V 10=L 08=S 04=P"),
            (Registry::Neighbor, 32, "80=F 40=B 20=V 10=L 08=S 04=P"),
            (Registry::Neighbor, 43, "80=B 40=S 20=P"),
            (Registry::Neighbor, 44, "80=B 40=S 20=P"),
            (Registry::Prefix, 3, "80=R 40=N 20=P 10=E 08=V 04=L"),
            (Registry::Prefix, 4, "80=X 40=R 20=N 10=E 08=A"),
            (Registry::RouterCapability, 2, "80=I 40=V"),
            (Registry::RouterCapability, 25, "4000=O"),
            (Registry::Binding, 3, "80=R 40=N 20=P 10=E 08=V 04=L"),
        ] {
            for (flag, letter) in letters.split(' ').filter_map(|one| one.split_once('=')) {
                let flags = u64::from_str_radix(flag, 16).unwrap();
                let shown = text(registry, kind, flags, 4 * flag.len());
                assert_eq!(shown, format!("0x{flag} ({letter})"), "{registry} {kind}");
            }
        }
    }

    #[test]
    fn bits_without_a_letter_are_shown_apart() {
        assert_eq!(
            text(Registry::Neighbor, 31, 0x31, 8),
            "0x31 (V L, and 0x01)"
        );
        let all = "0xFF (F B V L S P, and 0x03)";
        assert_eq!(text(Registry::Neighbor, 31, 0xFF, 8), all);
        assert_eq!(
            text(Registry::Neighbor, 43, 0xFF, 8),
            "0xFF (B S P, and 0x1F)"
        );
        assert_eq!(
            text(Registry::Prefix, 4, 0xFF, 8),
            "0xFF (X R N E A, and 0x07)"
        );
        assert_eq!(
            text(Registry::RouterCapability, 2, 0xFF, 8),
            "0xFF (I V, and 0x3F)"
        );
        assert_eq!(
            text(Registry::RouterCapability, 25, 0xFFFF, 16),
            "0xFFFF (O, and 0xBFFF)"
        );
        assert_eq!(
            text(Registry::RouterCapability, 25, 0x8000, 16),
            "0x8000 (no letters)"
        );
        for (registry, kind) in [(Registry::Prefix, 5), (Registry::RouterCapability, 22)] {
            assert_eq!(text(registry, kind, 0x81, 8), "0x81 (no letters)");
        }
    }

    #[test]
    fn no_flag_is_zeros_alone() {
        assert_eq!(text(Registry::Neighbor, 31, 0, 8), "0x00");
        assert_eq!(text(Registry::RouterCapability, 25, 0, 16), "0x0000");
    }
}
