//! Rows of a listing, laid out in columns.

use crate::style::Style;

/// What stands in the place of a name that a type has not.
const NO_NAME: &str = "type not known in this registry";

/// The spaces between columns.
const GAP: usize = 2;

/// The widest head that values are aligned by; behind a wider one, a value stands further on.
const WIDEST_HEAD: usize = 46;

/// The width after which a value goes on in the next line: that of 16 octets, and a character more.
const VALUE_WIDTH: usize = 48;

/// One row of a listing. Its value may go on over several lines.
#[derive(Debug)]
pub struct Row {
    /// How many entries it stands inside, its own not counted.
    depth: usize,
    /// What it begins with.
    head: Head,
    /// The value, or nothing.
    value: String,
}

/// What a row begins with.
#[derive(Debug)]
pub enum Head {
    /// An entry: its place, its type, and the name of the type if it has one.
    Entry {
        place: u64,
        kind: u8,
        name: Option<String>,
    },
    /// The name of a field of the entry above.
    Field(String),
    /// A remark on what is above.
    Note(String),
    /// Octets that are no entry: their place, and what is said of them.
    LeftOver { place: u64, text: String },
}

impl Row {
    /// A row at a depth.
    pub fn new(depth: usize, head: Head, value: String) -> Self {
        Self { depth, head, value }
    }

    /// The place that it begins with, and the type behind it; 0 where there is none.
    fn place_and_kind(&self) -> (u64, u8) {
        match self.head {
            Head::Entry { place, kind, .. } => (place, kind),
            Head::LeftOver { place, .. } => (place, 0),
            Head::Field(_) | Head::Note(_) => (0, 0),
        }
    }
}

/// The columns of a listing.
pub struct Layout {
    /// The width of a place.
    place_width: usize,
    /// The width of a type.
    kind_width: usize,
    /// The column at which values stand.
    value_column: usize,
}

impl Layout {
    /// The columns that rows need.
    pub fn of(rows: &[Row]) -> Self {
        let (places, kinds): (Vec<_>, Vec<_>) = rows.iter().map(Row::place_and_kind).unzip();
        let mut layout = Self {
            place_width: width(places.into_iter().max().unwrap_or(0)),
            kind_width: width(kinds.into_iter().max().unwrap_or(0).into()),
            value_column: 0,
        };
        let with_value = rows.iter().filter(|row| !row.value.is_empty());
        let widths = with_value.map(|row| layout.head_width(row));
        let widest = widths.filter(|width| *width <= WIDEST_HEAD).max();
        layout.value_column = widest.unwrap_or(0) + GAP;
        layout
    }

    /// Rows, laid out.
    pub fn text(&self, rows: &[Row], style: Style) -> String {
        rows.iter().map(|row| self.row(row, style)).collect()
    }

    /// The lines of a row.
    fn row(&self, row: &Row, style: Style) -> String {
        let mut lines = self.head(row, style);
        let width = self.head_width(row);
        let column = self.value_column.max(width + GAP);
        for (at, line) in wrapped(&row.value).iter().enumerate() {
            match at {
                0 => lines.push_str(&spaces(column - width)),
                _ => lines.push_str(&format!("\n{}", spaces(column))),
            }
            lines.push_str(line);
        }
        lines.push('\n');
        lines
    }

    /// What a row begins with.
    fn head(&self, row: &Row, style: Style) -> String {
        let outer = spaces(row.depth * self.step());
        let inner = spaces((row.depth + 1) * self.step());
        match &row.head {
            Head::Entry { place, kind, name } => {
                let name = match name {
                    Some(name) => style.name(name),
                    None => style.warning(NO_NAME),
                };
                outer + &self.columns(*place, &kind.to_string(), &name, style)
            }
            Head::LeftOver { place, text } => {
                outer + &self.columns(*place, "", &style.warning(text), style)
            }
            Head::Field(name) => inner + name,
            Head::Note(text) => inner + &style.warning(text),
        }
    }

    /// A place, a type and a name in their columns.
    fn columns(&self, place: u64, kind: &str, name: &str, style: Style) -> String {
        let (place_width, kind_width) = (self.place_width, self.kind_width);
        let place = style.place(&format!("{place:>place_width$}"));
        let kind = format!("{kind:>kind_width$}");
        [&place, &kind, name].join(&spaces(GAP))
    }

    /// The width of what a row begins with.
    fn head_width(&self, row: &Row) -> usize {
        self.head(row, Style::PLAIN).chars().count()
    }

    /// How much further in the fields of an entry stand: a little behind the beginning of its name.
    fn step(&self) -> usize {
        self.place_width + GAP + self.kind_width + GAP + GAP
    }
}

/// The digits of a number.
fn width(number: u64) -> usize {
    number.to_string().len()
}

/// So many spaces.
fn spaces(count: usize) -> String {
    " ".repeat(count)
}

/// A text in lines that are no wider than a value may be, broken at spaces. A word that is wider
/// stands alone in its line; of nothing there is no line.
fn wrapped(text: &str) -> Vec<String> {
    let mut lines: Vec<String> = Vec::new();
    for word in text.split_whitespace() {
        let width = word.chars().count() + 1;
        match lines.last_mut() {
            Some(line) if line.chars().count() + width <= VALUE_WIDTH => {
                line.push(' ');
                line.push_str(word);
            }
            _ => lines.push(word.into()),
        }
    }
    lines
}

#[cfg(test)]
mod tests {
    use super::*;

    /// An entry at a depth.
    fn entry(depth: usize, place: u64, name: Option<&str>, value: &str) -> Row {
        let name = name.map(String::from);
        Row::new(
            depth,
            Head::Entry {
                place,
                kind: 7,
                name,
            },
            value.into(),
        )
    }

    /// A field at a depth.
    fn field(depth: usize, name: &str, value: &str) -> Row {
        Row::new(depth, Head::Field(name.into()), value.into())
    }

    /// The lines of rows.
    fn lines(rows: &[Row], style: Style) -> Vec<String> {
        let text = Layout::of(rows).text(rows, style);
        text.lines().map(String::from).collect()
    }

    #[test]
    fn values_stand_in_one_column() {
        let rows = [
            entry(0, 8, Some("Name"), "1"),
            field(0, "long field", "2"),
            entry(1, 100, Some("In"), "3"),
            field(1, "f", "4"),
            Row::new(0, Head::Note("a note".into()), String::new()),
        ];
        // The widest head, that of the field inside, has 21 characters.
        let expected = [
            format!("{:<23}1", "  8  7  Name"),
            format!("{:<23}2", "          long field"),
            format!("{:<23}3", "          100  7  In"),
            format!("{:<23}4", "                    f"),
            "          a note".into(),
        ];
        assert_eq!(lines(&rows, Style::PLAIN), expected);
    }

    #[test]
    fn a_row_without_a_value_has_no_spaces_at_its_end() {
        let rows = [entry(0, 1, Some("A long name"), ""), field(0, "f", "1")];
        assert_eq!(
            lines(&rows, Style::PLAIN),
            ["1  7  A long name", "        f  1"]
        );
    }

    #[test]
    fn a_long_head_moves_its_own_value_alone() {
        let name = "n".repeat(50);
        let rows = [entry(0, 1, Some(&name), "1"), field(0, "f", "2")];
        let expected = [format!("1  7  {name}  1"), "        f  2".into()];
        assert_eq!(lines(&rows, Style::PLAIN), expected);
    }

    #[test]
    fn a_long_value_goes_on_under_itself() {
        let octets = ["AB"; 17].join(" ");
        let rows = [field(0, "f", &octets)];
        let first = format!("        f  {}", ["AB"; 16].join(" "));
        assert_eq!(lines(&rows, Style::PLAIN), [first, "           AB".into()]);
    }

    #[test]
    fn what_is_wider_than_a_line_stands_alone() {
        let wide = "w".repeat(60);
        assert_eq!(wrapped(&format!("a {wide} b c")), ["a", &wide, "b c"]);
        assert_eq!(wrapped(""), [""; 0]);
    }

    #[test]
    fn colours_do_not_move_columns() {
        let rows = [
            entry(0, 10, Some("Name"), "1"),
            entry(0, 20, None, "2"),
            Row::new(
                0,
                Head::LeftOver {
                    place: 30,
                    text: "left".into(),
                },
                "3".into(),
            ),
            Row::new(0, Head::Note("note".into()), String::new()),
        ];
        assert_eq!(
            lines(&rows, Style::COLOURED),
            [
                "\u{1b}[2m10\u{1b}[0m  7  \u{1b}[1mName\u{1b}[0m                             1",
                "\u{1b}[2m20\u{1b}[0m  7  \u{1b}[33mtype not known in this registry\u{1b}[0m  2",
                "\u{1b}[2m30\u{1b}[0m     \u{1b}[33mleft\u{1b}[0m                             3",
                "         \u{1b}[33mnote\u{1b}[0m",
            ]
        );
    }
}
