//! Entries of an area, and the rows that show them.

use std::ops::Range;

use wakkemosut::{LONGEST_NAME, Label, Position, Record, Refusal, Registry, name};

use crate::area::Pushed;
use crate::listing::layout::{Head, Row};
use crate::listing::least::LeastLengths;
use crate::listing::value;
use crate::quote::octets;

/// Fields that stand under their entry, unless it has no others: what people look for first is
/// another one.
const ASIDE: [Label; 11] = [
    Label::Flags,
    Label::Weight,
    Label::Algorithm,
    Label::NeighborSystemId,
    Label::Anomalous,
    Label::EndpointBehavior,
    Label::FlagX,
    Label::FlagR,
    Label::FlagN,
    Label::SubTlvs,
    Label::Raw,
];

/// An entry.
pub struct Entry<'tape> {
    /// The registry that gives its type a meaning.
    pub registry: Registry,
    /// Its type.
    pub kind: u8,
    /// The place of its first octet.
    pub place: u64,
    /// The records of its value.
    pub fields: Vec<Record<'tape>>,
}

impl<'tape> Entry<'tape> {
    /// The entry that an object is of.
    fn of(object: &Record<'tape>) -> Result<Self, Refusal> {
        let (mut kind, mut fields) = (0, Vec::new());
        for child in object.children() {
            let child = child?;
            match child.label {
                Label::Type => kind = child.number as u8,
                Label::Length => (),
                _ => fields.push(child),
            }
        }
        Ok(Self {
            registry: object.registry,
            kind,
            place: object.octets.start,
            fields,
        })
    }

    /// The field that stands in the line of the entry.
    fn main_field(&self) -> Option<&Record<'tape>> {
        let mut fields = self.fields.iter();
        let main = fields.find(|field| !ASIDE.contains(&field.label));
        main.or(self.fields.first())
    }

    /// Whether a field is in the line of the entry, and needs no row of its own.
    fn has_in_line(&self, field: &Record<'_>) -> bool {
        let is_main = |main: &Record<'_>| main.position == field.position;
        self.main_field().is_some_and(is_main) || value::is_in_line(field.label)
    }
}

/// The entries of an area.
pub fn entries<'tape>(pushed: &Pushed<'tape>) -> Result<Vec<Entry<'tape>>, Refusal> {
    match pushed.tape.trees_from(Position(0)).next() {
        Some(array) => array?
            .children()
            .map(|object| Entry::of(&object?))
            .collect(),
        None => Ok(Vec::new()),
    }
}

/// The name of a type in a registry, if it has one.
pub fn name_of(registry: Registry, kind: u8) -> Option<String> {
    let mut out = [0; LONGEST_NAME];
    let name = name(registry, kind, &mut out).ok().flatten();
    name.map(String::from)
}

/// Collects the rows of entries.
pub struct Lister<'lent> {
    /// The area that they are of.
    pushed: &'lent Pushed<'lent>,
    /// From which length on values are read.
    least: LeastLengths,
    /// The rows so far.
    pub rows: Vec<Row>,
}

impl<'lent> Lister<'lent> {
    /// A lister of an area, without rows.
    pub fn new(pushed: &'lent Pushed<'lent>) -> Self {
        Self {
            pushed,
            least: LeastLengths::default(),
            rows: Vec::new(),
        }
    }

    /// Adds the rows of an entry: its own line, and its further fields.
    pub fn add_entry(&mut self, entry: &Entry<'_>, depth: usize) -> Result<(), Refusal> {
        let value = match entry.main_field() {
            Some(main) => value::text(self.pushed, entry, main)?,
            None => String::new(),
        };
        let head = Head::Entry {
            place: entry.place,
            kind: entry.kind,
            name: name_of(entry.registry, entry.kind),
        };
        self.rows.push(Row::new(depth, head, value));
        let mut fields = entry.fields.iter();
        fields.try_for_each(|field| self.add_field(entry, field, depth))
    }

    /// Adds the rows of a field.
    fn add_field(
        &mut self,
        entry: &Entry<'_>,
        field: &Record<'_>,
        depth: usize,
    ) -> Result<(), Refusal> {
        match field.label {
            Label::SubTlvs => self.add_nested(field, depth + 1),
            Label::Value => self.add_why_not_read(entry, field, depth),
            Label::Ranges | Label::Msds | Label::UnreservedBandwidth => {
                self.add_elements(entry, field, depth)
            }
            _ if entry.has_in_line(field) => Ok(()),
            _ => {
                let value = value::text(self.pushed, entry, field)?;
                self.add_named(field_name(field), value, depth);
                Ok(())
            }
        }
    }

    /// Adds the rows of the entries of an inner area.
    fn add_nested(&mut self, array: &Record<'_>, depth: usize) -> Result<(), Refusal> {
        for object in array.children() {
            self.add_entry(&Entry::of(&object?)?, depth)?;
        }
        Ok(())
    }

    /// Adds a remark on a value that is shown in octets though its type has a name.
    fn add_why_not_read(
        &mut self,
        entry: &Entry<'_>,
        value: &Record<'_>,
        depth: usize,
    ) -> Result<(), Refusal> {
        if name_of(entry.registry, entry.kind).is_none() {
            return Ok(());
        }
        let note = match self.least.of(entry.registry, entry.kind)? {
            Some(least) => {
                let there = octets(length(value));
                format!("too short to be read: {there}, at least {least} needed")
            }
            None => "this type is not read: its value is shown as it is".into(),
        };
        self.rows
            .push(Row::new(depth, Head::Note(note), String::new()));
        Ok(())
    }

    /// Adds a row for each element of an array.
    fn add_elements(
        &mut self,
        entry: &Entry<'_>,
        array: &Record<'_>,
        depth: usize,
    ) -> Result<(), Refusal> {
        for (at, element) in array.children().enumerate() {
            let element = element?;
            let name = match element.label {
                Label::BandwidthElement => format!("priority {at}"),
                _ => field_name(&element),
            };
            let value = value::text(self.pushed, entry, &element)?;
            self.add_named(name, value, depth);
        }
        Ok(())
    }

    /// Adds a row with a name and a value.
    fn add_named(&mut self, name: String, value: String, depth: usize) {
        self.rows.push(Row::new(depth, Head::Field(name), value));
    }
}

/// The octets of a record.
fn length(record: &Record<'_>) -> usize {
    let Range { start, end } = record.octets;
    end.saturating_sub(start) as usize
}

/// The name of a field in a listing.
fn field_name(field: &Record<'_>) -> String {
    match field.label {
        Label::Raw => format!("{} not read", octets(length(field))),
        label => label.name().replace('_', " "),
    }
}
