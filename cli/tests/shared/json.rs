//! A reader of JSON that takes what RFC 8259 allows, and nothing else.

use std::iter::Peekable;
use std::str::Chars;

/// A value. Numbers are kept as they are written.
#[derive(Clone, Debug, PartialEq, Eq)]
pub enum Json {
    Word(String),
    Number(String),
    Text(String),
    List(Vec<Json>),
    Object(Vec<(String, Json)>),
}

impl Json {
    /// The value that a text is, and nothing behind it but a line break.
    pub fn of(text: &str) -> Option<Self> {
        let mut rest = text.strip_suffix('\n')?.chars().peekable();
        let value = value(&mut rest)?;
        rest.next().is_none().then_some(value)
    }

    /// A member of an object.
    pub fn member(&self, name: &str) -> Option<&Json> {
        let Self::Object(members) = self else {
            return None;
        };
        let (_, value) = members.iter().find(|(member, _)| member == name)?;
        Some(value)
    }

    /// The names of an object's members, in their order.
    pub fn names(&self) -> Vec<&str> {
        match self {
            Self::Object(members) => members.iter().map(|(name, _)| &name[..]).collect(),
            _ => Vec::new(),
        }
    }

    /// The values of a list.
    pub fn values(&self) -> &[Json] {
        match self {
            Self::List(values) => values,
            _ => &[],
        }
    }
}

/// What is still to be read.
type Rest<'text> = Peekable<Chars<'text>>;

/// Reads a value.
fn value(rest: &mut Rest<'_>) -> Option<Json> {
    match rest.peek()? {
        '{' => Some(Json::Object(row(rest, '{', '}', member)?)),
        '[' => Some(Json::List(row(rest, '[', ']', value)?)),
        '"' => Some(Json::Text(text(rest)?)),
        'a'..='z' => {
            let word = taken(rest, |character| character.is_ascii_lowercase());
            let is_known = ["true", "false", "null"].contains(&&word[..]);
            is_known.then_some(Json::Word(word))
        }
        _ => {
            let number = taken(rest, |character| "+-.eE0123456789".contains(character));
            is_number(&number).then_some(Json::Number(number))
        }
    }
}

/// Reads what stands between two marks, with commas between.
fn row<Item>(
    rest: &mut Rest<'_>,
    first: char,
    last: char,
    item: fn(&mut Rest<'_>) -> Option<Item>,
) -> Option<Vec<Item>> {
    let mut items = Vec::new();
    rest.next_if_eq(&first)?;
    if rest.next_if_eq(&last).is_some() {
        return Some(items);
    }
    loop {
        items.push(item(rest)?);
        match rest.next()? {
            ',' => (),
            mark if mark == last => return Some(items),
            _ => return None,
        }
    }
}

/// Reads a member of an object.
fn member(rest: &mut Rest<'_>) -> Option<(String, Json)> {
    let name = text(rest)?;
    rest.next_if_eq(&':')?;
    Some((name, value(rest)?))
}

/// Reads a text. None of the command's has an escape, so none is taken.
fn text(rest: &mut Rest<'_>) -> Option<String> {
    rest.next_if_eq(&'"')?;
    let text = taken(rest, |character| {
        !character.is_control() && !"\"\\".contains(character)
    });
    rest.next_if_eq(&'"')?;
    Some(text)
}

/// Takes characters for as long as they are such.
fn taken(rest: &mut Rest<'_>, is_such: impl Fn(char) -> bool) -> String {
    std::iter::from_fn(|| rest.next_if(|character| is_such(*character))).collect()
}

/// Whether a text is a number of RFC 8259 without fraction and exponent, which the command writes
/// none of.
fn is_number(text: &str) -> bool {
    let is_digits = !text.is_empty() && text.bytes().all(|digit| digit.is_ascii_digit());
    is_digits && (text == "0" || !text.starts_with('0'))
}

#[test]
fn the_reader_takes_json_alone() {
    for good in [
        "{}\n",
        "[]\n",
        "[1,0]\n",
        "{\"a\":[{\"b\":\"c d\"},null]}\n",
        "\"\"\n",
    ] {
        assert!(Json::of(good).is_some(), "{good}");
    }
    for bad in [
        "",
        "\n",
        "{}",
        "{},\n",
        "[1,]\n",
        "{\"a\":}\n",
        "{\"a\"}\n",
        "[01]\n",
        "[1 2]\n",
        "{a:1}\n",
        "\"a\n",
        "\"\u{1}\"\n",
        "[nil]\n",
        "[-]\n",
        "[1}\n",
        "{\"a\":1,}\n",
        "{}}\n",
        "\"\\\"\n",
    ] {
        assert_eq!(Json::of(bad), None, "{bad}");
    }
}
