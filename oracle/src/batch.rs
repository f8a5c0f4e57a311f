//! Batches of cases, as the program reads them.

use std::error::Error;
use std::fmt;

use crate::registry::LAST_REGISTRY;

/// One push to be done.
#[derive(Clone, Copy, Debug, PartialEq, Eq)]
pub struct PushCase<'a> {
    /// The registry, 0 to 5.
    pub registry: u8,
    /// The place of the area's first octet.
    pub base: u32,
    /// The octets to be walked.
    pub area: &'a [u8],
}

/// One prefix to be masked.
#[derive(Clone, Copy, Debug, PartialEq, Eq)]
pub struct MaskCase<'a> {
    /// The number of bits to be kept.
    pub bits: u32,
    /// The prefix before masking.
    pub prefix: &'a [u8],
}

/// What is wrong with a batch.
#[derive(Clone, Copy, Debug, PartialEq, Eq)]
pub enum BatchError {
    /// The octets end inside a case.
    CutOff,
    /// A registry is not 0 to 5.
    Registry(u8),
}

impl fmt::Display for BatchError {
    fn fmt(&self, out: &mut fmt::Formatter<'_>) -> fmt::Result {
        match self {
            Self::CutOff => write!(out, "the batch ends inside a case"),
            Self::Registry(number) => write!(out, "registry {number} is not 0 to {LAST_REGISTRY}"),
        }
    }
}

impl Error for BatchError {}

/// The pushes of a batch; each is registry (1 octet), base (4), length of
/// the area (4), area.
pub fn push_cases(mut batch: &[u8]) -> Result<Vec<PushCase<'_>>, BatchError> {
    let mut cases = Vec::new();
    while !batch.is_empty() {
        cases.push(take_push_case(&mut batch)?);
    }
    Ok(cases)
}

/// The masks of a batch; each is bits (4 octets), length of the prefix (4),
/// prefix.
pub fn mask_cases(mut batch: &[u8]) -> Result<Vec<MaskCase<'_>>, BatchError> {
    let mut cases = Vec::new();
    while !batch.is_empty() {
        cases.push(take_mask_case(&mut batch)?);
    }
    Ok(cases)
}

/// Takes a push off the front of a batch.
fn take_push_case<'a>(batch: &mut &'a [u8]) -> Result<PushCase<'a>, BatchError> {
    let registry = take(batch, 1)?[0];
    if registry > LAST_REGISTRY {
        return Err(BatchError::Registry(registry));
    }
    let base = take_number(batch)?;
    let length = take_number(batch)?;
    let area = take(batch, length as usize)?;
    Ok(PushCase {
        registry,
        base,
        area,
    })
}

/// Takes a mask off the front of a batch.
fn take_mask_case<'a>(batch: &mut &'a [u8]) -> Result<MaskCase<'a>, BatchError> {
    let bits = take_number(batch)?;
    let length = take_number(batch)?;
    let prefix = take(batch, length as usize)?;
    Ok(MaskCase { bits, prefix })
}

/// Takes a big-endian number of four octets off the front of a batch.
fn take_number(batch: &mut &[u8]) -> Result<u32, BatchError> {
    let (octets, rest) = batch.split_first_chunk().ok_or(BatchError::CutOff)?;
    *batch = rest;
    Ok(u32::from_be_bytes(*octets))
}

/// Takes octets off the front of a batch.
fn take<'a>(batch: &mut &'a [u8], count: usize) -> Result<&'a [u8], BatchError> {
    let (taken, rest) = batch.split_at_checked(count).ok_or(BatchError::CutOff)?;
    *batch = rest;
    Ok(taken)
}

#[cfg(test)]
mod tests {
    use super::*;

    const TWO_PUSHES: [u8; 21] = [
        2, 0, 0, 0, 100, 0, 0, 0, 3, 7, 1, 9, // registry 2, base 100, three octets
        5, 1, 2, 3, 4, 0, 0, 0, 0, // registry 5, base 16,909,060, empty
    ];
    const TWO_MASKS: [u8; 18] = [
        0, 0, 0, 13, 0, 0, 0, 2, 0xFF, 0xFE, // 13 bits, two octets
        0, 1, 0, 0, 0, 0, 0, 0, // 65,536 bits, empty
    ];

    #[test]
    fn an_empty_batch_has_no_cases() {
        assert_eq!(push_cases(&[]), Ok(vec![]));
        assert_eq!(mask_cases(&[]), Ok(vec![]));
    }

    #[test]
    fn pushes_are_read_one_after_another() {
        let first = PushCase {
            registry: 2,
            base: 100,
            area: &[7, 1, 9],
        };
        let second = PushCase {
            registry: 5,
            base: 16_909_060,
            area: &[],
        };
        assert_eq!(push_cases(&TWO_PUSHES), Ok(vec![first, second]));
    }

    #[test]
    fn masks_are_read_one_after_another() {
        let first = MaskCase {
            bits: 13,
            prefix: &[0xFF, 0xFE],
        };
        let second = MaskCase {
            bits: 65_536,
            prefix: &[],
        };
        assert_eq!(mask_cases(&TWO_MASKS), Ok(vec![first, second]));
    }

    #[test]
    fn a_push_batch_cut_off_inside_a_case_is_refused() {
        for end in (1..TWO_PUSHES.len()).filter(|end| *end != 12) {
            assert_eq!(push_cases(&TWO_PUSHES[..end]), Err(BatchError::CutOff));
        }
    }

    #[test]
    fn a_mask_batch_cut_off_inside_a_case_is_refused() {
        for end in (1..TWO_MASKS.len()).filter(|end| *end != 10) {
            assert_eq!(mask_cases(&TWO_MASKS[..end]), Err(BatchError::CutOff));
        }
    }

    #[test]
    fn a_registry_over_5_is_refused() {
        for registry in 6..=u8::MAX {
            let batch = [registry, 0, 0, 0, 0, 0, 0, 0, 0];
            assert_eq!(push_cases(&batch), Err(BatchError::Registry(registry)));
        }
    }
}
