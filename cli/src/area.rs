//! The command `area`: reads an area, and shows what it says.

mod asked;

use wakkemosut::{LONGEST_AREA, Laid, Refusal, Registry, Tape, most_records};

use crate::failure::Failure;
use crate::input::{self, Area, Source};
use crate::quote::octets;
use crate::style::Style;
use crate::words::Words;
use crate::{json, listing, records, registries};
use asked::{Asked, Form, Which};

/// An area, and the tape that it alone was pushed onto.
pub struct Pushed<'lent> {
    /// The registry that it was pushed in.
    pub registry: Registry,
    /// The place of its first octet.
    pub base: u64,
    /// The word for that place, where the area's octets are words behind it.
    pub word_before: Option<&'lent str>,
    /// Its octets.
    pub octets: &'lent [u8],
    /// What the push gave.
    pub laid: Laid,
    /// The tape with its records.
    pub tape: &'lent Tape<'lent>,
}

/// What an area says, in the form that the words ask for.
pub fn answer(words: Words) -> Result<String, Failure> {
    let asked = Asked::of(&words)?;
    let area = input::area(&asked.source, asked.base.value)?;
    let refused = |refusal| Failure::Refused(refusal, figures(refusal, &asked, &area));
    let Which::Known(registry) = asked.registry else {
        return Err(refused(Refusal::NoRegistry));
    };
    let (base, octets) = (asked.base.value, &area.octets[..]);
    // A longer area is refused before room is looked for.
    let room = most_records(octets.len().min(LONGEST_AREA));
    let mut lent = vec![0; Tape::words_for(room)];
    let mut tape = Tape::cleared(&mut lent)?;
    let laid = tape.push(registry, base, octets).map_err(refused)?;
    let word_before = match asked.source {
        Source::Words(_) => Some(words.operands[asked::BASE].as_str()),
        _ => None,
    };
    let pushed = Pushed {
        registry,
        base,
        word_before,
        octets,
        laid,
        tape: &tape,
    };
    let shown = match asked.form {
        Form::Listing => listing::text(&pushed, Style::of_output()),
        Form::Records => records::text(&pushed),
        Form::Json => json::text(&pushed),
    };
    shown.map_err(Failure::from)
}

/// The figures that matter to a refusal.
fn figures(refusal: Refusal, asked: &Asked, area: &Area) -> String {
    let length = area.octets.len();
    match (refusal, &asked.registry) {
        (Refusal::NoRegistry, Which::None(number)) => {
            let all = registries::listed(&registries::numbered());
            format!(" (it is {}; they are {all})", number.digits)
        }
        (Refusal::AreaTooLong, _) if area.cut => {
            format!(" (it has {length} or more, and was not read further)")
        }
        (Refusal::AreaTooLong, _) => format!(" (it has {length})"),
        (Refusal::BaseTooHigh, _) => {
            format!(" (base {}, {})", asked.base.digits, octets(length))
        }
        _ => String::new(),
    }
}
