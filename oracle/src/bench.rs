//! The module's push into a buffer that is kept, for the benchmark.

use crate::packet::DissectBuffer;
use crate::registry::context;
use crate::sub_tlv::push_sub_tlvs;

/// Pushes an area into a buffer, behind what it has; the registry must be 0 to 5.
pub fn push_onto<'pkt>(
    buffer: &mut DissectBuffer<'pkt>,
    registry: u8,
    base: u32,
    area: &'pkt [u8],
) {
    push_sub_tlvs(buffer, area, base as usize, context(registry));
}

#[cfg(test)]
mod tests {
    use super::*;
    use crate::field::Field;
    use crate::records::pushed;

    /// An area of router capabilities.
    const FIRST: [u8; 5] = [19, 3, 0, 1, 2];

    /// An area of a neighbor that ends inside an entry.
    const SECOND: [u8; 6] = [18, 3, 0, 0, 10, 9];

    /// The fields as text.
    fn text(fields: &[Field<'_>]) -> String {
        format!("{fields:?}")
    }

    #[test]
    fn a_push_goes_behind_what_is_there() {
        let mut buffer = DissectBuffer::new();
        push_onto(&mut buffer, 2, 100, &FIRST);
        push_onto(&mut buffer, 0, 7, &SECOND);
        let (first, second) = (pushed(2, 100, &FIRST), pushed(0, 7, &SECOND));
        let (before, behind) = buffer.fields().split_at(first.fields().len());
        assert_eq!(text(before), text(first.fields()));
        assert_eq!(behind.len(), second.fields().len());
    }

    #[test]
    fn a_buffer_that_was_emptied_gives_what_a_new_one_does() {
        let mut kept = DissectBuffer::new();
        push_onto(&mut kept, 2, 100, &FIRST);
        let memory = kept.fields().as_ptr();
        kept.clear();
        push_onto(&mut kept, 0, 7, &SECOND);
        assert_eq!(text(kept.fields()), text(pushed(0, 7, &SECOND).fields()));
        assert_eq!(kept.fields().as_ptr(), memory);
    }
}
