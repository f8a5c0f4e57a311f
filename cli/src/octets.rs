//! Octets written in hex.

use crate::quote::quoted;

/// What separates pieces inside a word.
const SEPARATORS: [char; 3] = [':', '-', '.'];

/// What separates words inside a line.
const SPACES: [char; 3] = [' ', '\t', '\r'];

/// The digits of an octet.
const OCTET_DIGITS: usize = 2;

/// The least digits of an offset in a hex dump.
const OFFSET_DIGITS: usize = 4;

/// What is wrong in a text, and where.
#[derive(Debug, PartialEq, Eq)]
pub struct Wrong {
    /// The line, counted from 1.
    pub line: usize,
    /// The piece or word that is wrong, and what was expected.
    pub words: String,
}

/// The octets that a text says. Its words stand between spaces, tabs and line breaks; a word is one
/// piece, or several with `:`, `-` or `.` between them; a piece is whole octets, two hex digits
/// each, behind `0x` or not. The first octet is at place `base`, which offsets may be told by.
pub fn read(text: &str, base: u64) -> Result<Vec<u8>, Wrong> {
    let mut octets = Vec::new();
    let mut dump = Dump { base, last: None };
    for (before, line) in text.split('\n').enumerate() {
        dump.look_at(line, octets.len())
            .and_then(|()| read_line(line, &mut octets))
            .map_err(|words| Wrong {
                line: before + 1,
                words,
            })?;
    }
    Ok(octets)
}

/// The words of a line.
fn words(line: &str) -> impl Iterator<Item = &str> {
    line.split(SPACES).filter(|word| !word.is_empty())
}

/// Appends the octets of a line.
fn read_line(line: &str, octets: &mut Vec<u8>) -> Result<(), String> {
    words(line).try_for_each(|word| read_word(word, octets))
}

/// Appends the octets of a word.
fn read_word(word: &str, octets: &mut Vec<u8>) -> Result<(), String> {
    for piece in word.split(SEPARATORS) {
        read_piece(piece, octets).map_err(|why| {
            let named = match piece {
                "" => quoted(word),
                _ if piece == word => quoted(piece),
                _ => format!("{} in {}", quoted(piece), quoted(word)),
            };
            format!("{named} {why}")
        })?;
    }
    Ok(())
}

/// Appends the octets of a piece.
fn read_piece(piece: &str, octets: &mut Vec<u8>) -> Result<(), String> {
    if piece.is_empty() {
        return Err(
            "has an empty piece: octets stand on both sides of a ':', '-' or '.', \
                    and a hex dump is written without its offsets and characters"
                .into(),
        );
    }
    let digits = without_prefix(piece);
    if let Some(wrong) = digits.chars().find(|digit| !digit.is_ascii_hexdigit()) {
        return Err(no_digit(wrong));
    }
    if digits.is_empty() || digits.len() % OCTET_DIGITS != 0 {
        return Err(no_whole_octets(digits));
    }
    let pairs = digits.as_bytes().chunks(OCTET_DIGITS);
    octets.extend(pairs.map(|pair| {
        pair.iter()
            .fold(0, |octet, digit| octet << 4 | nibble(*digit))
    }));
    Ok(())
}

/// The digits of a piece, without `0x` in front.
fn without_prefix(piece: &str) -> &str {
    let plain = piece.strip_prefix("0x").or(piece.strip_prefix("0X"));
    plain.unwrap_or(piece)
}

/// The number that a hex digit says.
fn nibble(digit: u8) -> u8 {
    match digit {
        b'0'..=b'9' => digit - b'0',
        _ => (digit | 0x20) - b'a' + 10,
    }
}

/// What is told of a piece with something else than hex digits.
fn no_digit(wrong: char) -> String {
    let named = quoted(&wrong.to_string());
    let expected = if wrong.is_control() {
        "a file's octets themselves are read by --binary"
    } else {
        "write octets as in 12 03 00 or 12:03:00"
    };
    format!("is not octets in hex: {named} is no hex digit; {expected}")
}

/// What is told of a piece whose digits are no whole octets.
fn no_whole_octets(digits: &str) -> String {
    match digits.len() {
        0 => "has no hex digits; an octet has two".into(),
        1 => format!("is not whole octets: an octet has two hex digits (write 0{digits})"),
        count => format!("is not whole octets: it has {count} hex digits, and an octet has two"),
    }
}

/// What tells a hex dump with a column of offsets.
struct Dump {
    /// The place of the first octet.
    base: u64,
    /// The line before, if it may be one of a dump.
    last: Option<DumpLine>,
}

/// A line that may be one of a hex dump: an offset, and some octets.
#[derive(Clone, Copy)]
struct DumpLine {
    offset: u64,
    octets: u64,
}

impl Dump {
    /// Refuses a line whose first piece is an offset: it says how many octets stand before the
    /// line, or at which place the line does, or goes on from the offset of the line before.
    fn look_at(&mut self, line: &str, before: usize) -> Result<(), String> {
        let last = self.last.take();
        let Some((first, here)) = dump_line(line) else {
            return Ok(());
        };
        self.last = Some(here);
        let before = before as u64;
        let after_last = last.and_then(|last| last.offset.checked_add(last.octets));
        let offsets = [Some(before), self.base.checked_add(before), after_last];
        if offsets.contains(&Some(here.offset)) {
            return Err(format!(
                "{} looks like an offset in a hex dump, which would be read as octets: leave the \
                 column out; octets that only look so are written with spaces, as 00 00",
                quoted(first)
            ));
        }
        Ok(())
    }
}

/// A line that may be one of a hex dump, and the piece that would be its offset.
fn dump_line(line: &str) -> Option<(&str, DumpLine)> {
    let mut pieces = words(line).flat_map(|word| word.split(SEPARATORS));
    let first = pieces.next()?;
    if digits_of(first)? < OFFSET_DIGITS {
        return None;
    }
    let offset = u64::from_str_radix(without_prefix(first), 16).ok()?;
    let digits = pieces.try_fold(0, |count, piece| Some(count + digits_of(piece)?))?;
    let octets = (digits / OCTET_DIGITS) as u64;
    (octets > 0).then_some((first, DumpLine { offset, octets }))
}

/// How many hex digits a piece has, if it has nothing else.
fn digits_of(piece: &str) -> Option<usize> {
    let digits = without_prefix(piece);
    let is_hex = digits.bytes().all(|digit| digit.is_ascii_hexdigit());
    is_hex.then_some(digits.len())
}

#[cfg(test)]
mod tests {
    use super::*;

    /// What a text says that is at place 0x4000.
    fn read(text: &str) -> Result<Vec<u8>, Wrong> {
        super::read(text, 0x4000)
    }

    /// The words that tell what is wrong in a text.
    fn wrong(text: &str) -> String {
        read(text).unwrap_err().words
    }

    #[test]
    fn all_forms_say_the_same_octets() {
        for text in [
            "12 03 00 00 0A",
            "120300000a",
            "0x120300000A",
            "0X12 0x03 0x0000 0a",
            "12:03:00:00:0A",
            "12-03-00-00-0a",
            "1203.0000.0a",
            "1203 00 00 0A",
            "12:03-00.00 0A",
            "  12\t03\r\n00\n\n00   0A \n",
            "0x12:0x03:00:00:0x0A",
        ] {
            assert_eq!(
                read(text),
                Ok(vec![0x12, 0x03, 0x00, 0x00, 0x0A]),
                "{text:?}"
            );
        }
    }

    #[test]
    fn every_octet_is_read() {
        let every: Vec<u8> = (0..=255).collect();
        let lower: String = every.iter().map(|octet| format!("{octet:02x}")).collect();
        let upper: Vec<String> = every.iter().map(|octet| format!("{octet:02X}")).collect();
        assert_eq!(read(&lower), Ok(every.clone()));
        assert_eq!(read(&upper.join(" ")), Ok(every));
    }

    #[test]
    fn no_pieces_are_no_octets() {
        for text in ["", " ", "\n", " \t\r\n \n"] {
            assert_eq!(read(text), Ok(vec![]), "{text:?}");
        }
    }

    #[test]
    fn what_is_not_whole_octets_is_named() {
        let one = "'3' is not whole octets: an octet has two hex digits (write 03)";
        assert_eq!(wrong("12 3 0 0 A"), one);
        let three = "is not whole octets: it has 3 hex digits, and an octet has two";
        assert_eq!(wrong("12 030 00"), format!("'030' {three}"));
        assert_eq!(wrong("0x123"), format!("'0x123' {three}"));
        let word = "'1' in '12:1:00' is not whole octets: an octet has two hex digits (write 01)";
        assert_eq!(wrong("12:1:00"), word);
        for empty in ["0x", "0X"] {
            let message = format!("'{empty}' has no hex digits; an octet has two");
            assert_eq!(wrong(empty), message);
        }
    }

    #[test]
    fn an_empty_piece_is_refused() {
        let why = "has an empty piece: octets stand on both sides of a ':', '-' or '.', \
                   and a hex dump is written without its offsets and characters";
        for word in [
            "12::03", "12:", ".12", ":", "-", "12--03", "12.-03", "0x0000:", "-12",
        ] {
            assert_eq!(wrong(word), format!("'{word}' {why}"));
            assert_eq!(wrong(&format!("06 {word} 07")), format!("'{word}' {why}"));
        }
    }

    #[test]
    fn what_is_no_hex_is_named() {
        for (text, word, digit) in [
            ("12 g3", "'g3'", "'g'"),
            ("0x12,0x03", "'0x12,0x03'", "','"),
            ("x12", "'x12'", "'x'"),
            ("0x0x12", "'0x0x12'", "'x'"),
            ("+12", "'+12'", "'+'"),
            ("\\x12\\x03", "'\\x12\\x03'", "'\\'"),
            ("|.....|", "'|' in '|.....|'", "'|'"),
            ("１２", "'１２'", "'１'"),
            ("12\u{a0}03", "'12\\u{a0}03'", "'\\u{a0}'"),
            ("\u{feff}12", "'\\u{feff}12'", "'\\u{feff}'"),
        ] {
            let write = "write octets as in 12 03 00 or 12:03:00";
            let why = format!("{digit} is no hex digit; {write}");
            let message = format!("{word} is not octets in hex: {why}");
            assert_eq!(wrong(text), message);
        }
        let binary = "'\\u{12}\\u{3}' is not octets in hex: '\\u{12}' is no hex digit; \
                      a file's octets themselves are read by --binary";
        assert_eq!(wrong("\u{12}\u{3}"), binary);
    }

    #[test]
    fn the_line_of_what_is_wrong_is_told() {
        assert_eq!(read("12 03\r\n00\n 0 0A").unwrap_err().line, 3);
        assert_eq!(read("1").unwrap_err().line, 1);
    }

    #[test]
    fn the_offsets_of_a_dump_are_refused() {
        let why = "looks like an offset in a hex dump, which would be read as octets: leave the \
                   column out; octets that only look so are written with spaces, as 00 00";
        for (text, offset, line) in [
            ("0000 12 03 00 00 0A", "0000", 1),
            ("000000 12", "000000", 1),
            ("00000000  12 03\n00000002  00\n", "00000000", 1),
            ("\n\n0000:12:03", "0000", 3),
            ("12 03\n0002 00 00 0A", "0002", 2),
            ("1203000000000000 12030000\n000c 00 0a", "000c", 2),
            ("0030  12 03 00\n0033  00 0a", "0033", 2),
            ("12\n0040 12 03\n0042 00\n", "0042", 3),
            ("4000 12 03", "4000", 1),
            ("12 03\n00004002 00", "00004002", 2),
            ("0000000 12 03", "0000000", 1),
            ("0000 1203 0000\n0004 0a", "0000", 1),
            ("00000000 12030000 0a", "00000000", 1),
            ("0x0000  1203 0000", "0x0000", 1),
            ("00000000: 1203 0000 0a  .....", "00000000", 1),
            ("1203\n0x0002 0000", "0x0002", 2),
            ("0030 1203 0000\n0034 0a1f", "0034", 2),
            ("0000 12 0300", "0000", 1),
        ] {
            let words = format!("'{offset}' {why}");
            assert_eq!(read(text), Err(Wrong { line, words }), "{text:?}");
        }
    }

    #[test]
    fn octets_that_only_resemble_a_dump_are_read() {
        for (text, count) in [
            ("0000", 2),
            ("00 00 12 03", 4),
            ("00001203", 4),
            ("0001 12 03", 4),
            ("0x1203 0x0000", 4),
            ("4001 12 03", 4),
            ("12 03\n4000 00", 5),
            ("00 12 03", 3),
            ("1203 00 00\n0A12 03", 7),
            ("0030 12 03\n12 03\n0032 00", 9),
            ("ffffffffffffffffffff 12", 11),
        ] {
            assert_eq!(read(text).map(|octets| octets.len()), Ok(count), "{text:?}");
        }
    }
}
