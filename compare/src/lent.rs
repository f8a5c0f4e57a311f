//! Octets or words to be lent, with others around them that must stay.

/// The number of items on either side of the lent ones.
const MARGIN: usize = 32;

/// Lent items in the middle of a larger buffer.
#[derive(Clone, Debug, PartialEq, Eq)]
pub struct Lent<Item> {
    items: Vec<Item>,
}

impl<Item: Copy + From<u8>> Lent<Item> {
    /// Items that count up from `start` and over at 256, `length` of them to be lent.
    pub fn counting(start: u8, length: usize) -> Self {
        let count = MARGIN + length + MARGIN;
        let items = (0..count).map(|place| Item::from(start.wrapping_add(place as u8)));
        Self {
            items: items.collect(),
        }
    }

    /// These items, to be lent, between others.
    pub fn around(content: &[Item]) -> Self {
        let mut lent = Self::counting(0x81, content.len());
        lent.middle().copy_from_slice(content);
        lent
    }

    /// The items to be lent.
    pub fn middle(&mut self) -> &mut [Item] {
        let end = self.items.len() - MARGIN;
        &mut self.items[MARGIN..end]
    }
}

impl<Item: Copy + PartialEq> Lent<Item> {
    /// The first place, counted from the first lent item, at which these items
    /// are not the wanted ones, and both items there.
    pub fn difference(&self, wanted: &Self) -> Option<(isize, Item, Item)> {
        assert_eq!(self.items.len(), wanted.items.len(), "items");
        if self == wanted {
            return None;
        }
        let pairs = self.items.iter().zip(&wanted.items);
        let mut places = (-(MARGIN as isize)..).zip(pairs);
        let (place, (item, wanted)) = places.find(|(_, (item, wanted))| item != wanted)?;
        Some((place, *item, *wanted))
    }
}

#[cfg(test)]
mod tests {
    use super::*;

    #[test]
    fn the_middle_is_as_long_as_asked_for() {
        for length in 0..300 {
            assert_eq!(Lent::<u8>::counting(7, length).middle().len(), length);
            assert_eq!(Lent::<u64>::counting(7, length).middle().len(), length);
        }
    }

    #[test]
    fn the_middle_holds_the_content() {
        assert_eq!(Lent::<u8>::around(&[1, 2, 3]).middle(), [1, 2, 3]);
        assert_eq!(Lent::around(&[1, u64::MAX]).middle(), [1, u64::MAX]);
    }

    #[test]
    fn a_change_beside_the_middle_is_seen() {
        let before = Lent::<u64>::around(&[1, 2, 3]);
        for place in [MARGIN - 1, MARGIN + 3] {
            let mut after = before.clone();
            after.items[place] ^= 1;
            assert_ne!(before, after);
        }
    }

    #[test]
    fn a_difference_has_its_place() {
        let wanted = Lent::<u64>::around(&[1, 2, 3]);
        assert_eq!(wanted.difference(&wanted), None);
        let mut after = wanted.clone();
        after.middle()[2] = 7;
        assert_eq!(after.difference(&wanted), Some((2, 7, 3)));
        after.items[0] = 9;
        assert_eq!(after.difference(&wanted), Some((-32, 9, 0x81)));
    }
}
