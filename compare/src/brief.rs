//! Short texts of long things, for messages.

use std::fmt::{Display, Formatter, Result};

use crate::native::Area;

/// The most items that are shown.
const MOST_ITEMS: usize = 600;

/// Items, of which the first are shown, and how many there are.
pub struct Brief<'a, Item>(pub &'a [Item]);

impl<Item: Display> Display for Brief<'_, Item> {
    fn fmt(&self, out: &mut Formatter<'_>) -> Result {
        write!(out, "{} [", self.0.len())?;
        for item in self.0.iter().take(MOST_ITEMS) {
            write!(out, " {item}")?;
        }
        let end = if self.0.len() > MOST_ITEMS {
            " ..."
        } else {
            ""
        };
        write!(out, "{end} ]")
    }
}

impl Display for Area<'_> {
    fn fmt(&self, out: &mut Formatter<'_>) -> Result {
        let octets = Brief(self.octets);
        let Self { registry, base, .. } = self;
        write!(out, "registry {registry}, base {base}, octets {octets}")
    }
}

#[cfg(test)]
mod tests {
    use super::*;

    #[test]
    fn few_items_are_all_shown() {
        assert_eq!(Brief(&[18, 3, 255]).to_string(), "3 [ 18 3 255 ]");
        assert_eq!(Brief::<u8>(&[]).to_string(), "0 [ ]");
    }

    #[test]
    fn of_many_items_the_first_are_shown() {
        let text = Brief(&[7; 601]).to_string();
        assert_eq!(text, format!("601 [{} ... ]", " 7".repeat(600)));
    }

    #[test]
    fn an_area_is_shown_with_its_registry_and_base() {
        let area = Area::new(2, 100, &[19, 0]);
        assert_eq!(area.to_string(), "registry 2, base 100, octets 2 [ 19 0 ]");
    }
}
