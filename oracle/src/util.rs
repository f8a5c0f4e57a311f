//! Stands in for the `util` module of the original's crate
//! `packet_dissector_core`, which is not in docs/src.

/// The error of a read past the end of the octets.
#[derive(Clone, Copy, Debug, PartialEq, Eq)]
pub struct OutOfBounds;

/// A 16-bit number at this place.
pub fn read_be_u16(octets: &[u8], at: usize) -> Result<u16, OutOfBounds> {
    read(octets, at).map(u16::from_be_bytes)
}

/// A 24-bit number at this place.
pub fn read_be_u24(octets: &[u8], at: usize) -> Result<u32, OutOfBounds> {
    let [high, middle, low] = read(octets, at)?;
    Ok(u32::from_be_bytes([0, high, middle, low]))
}

/// A 32-bit number at this place.
pub fn read_be_u32(octets: &[u8], at: usize) -> Result<u32, OutOfBounds> {
    read(octets, at).map(u32::from_be_bytes)
}

/// A 64-bit number at this place.
pub fn read_be_u64(octets: &[u8], at: usize) -> Result<u64, OutOfBounds> {
    read(octets, at).map(u64::from_be_bytes)
}

/// An IPv6 address at this place.
pub fn read_ipv6_addr(octets: &[u8], at: usize) -> Result<[u8; 16], OutOfBounds> {
    read(octets, at)
}

/// The `N` octets at this place.
fn read<const N: usize>(octets: &[u8], at: usize) -> Result<[u8; N], OutOfBounds> {
    let rest = octets.get(at..).ok_or(OutOfBounds)?;
    rest.first_chunk().copied().ok_or(OutOfBounds)
}

#[cfg(test)]
mod tests {
    use super::*;

    const OCTETS: [u8; 17] = [0, 1, 2, 3, 4, 5, 6, 7, 8, 9, 10, 11, 12, 13, 14, 15, 16];

    #[test]
    fn reads_are_big_endian() {
        assert_eq!(read_be_u16(&OCTETS, 1), Ok(0x0102));
        assert_eq!(read_be_u24(&OCTETS, 1), Ok(0x01_0203));
        assert_eq!(read_be_u32(&OCTETS, 1), Ok(0x0102_0304));
        assert_eq!(read_be_u64(&OCTETS, 1), Ok(0x0102_0304_0506_0708));
        assert_eq!(read_ipv6_addr(&OCTETS, 1).unwrap()[..], OCTETS[1..]);
    }

    #[test]
    fn reads_past_the_end_are_errors() {
        assert_eq!(read_be_u16(&OCTETS, 16), Err(OutOfBounds));
        assert_eq!(read_be_u24(&OCTETS, 15), Err(OutOfBounds));
        assert_eq!(read_be_u32(&OCTETS, 14), Err(OutOfBounds));
        assert_eq!(read_be_u64(&OCTETS, 10), Err(OutOfBounds));
        assert_eq!(read_ipv6_addr(&OCTETS, 2), Err(OutOfBounds));
        assert_eq!(read_be_u16(&OCTETS, usize::MAX), Err(OutOfBounds));
    }
}
