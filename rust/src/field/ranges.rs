//! Refusals 2 to 5, and 14 where it is for a range: a field is out of its range.

use std::ops::RangeInclusive;

use super::numbers::{with_commas, without_commas};
use super::part::{Part, Which};
use super::rows::{Field, Instrument, Type, INSTRUMENTS};

/// The clause for the field at that place of the part.
pub fn out_of_range(part: &Part, at: usize, refusal: u32) -> Option<String> {
    let row = part.field_at(at)?;
    let bytes = part.bytes_of(row)?;
    let (field, subject) = if row.is_by_the_kind() {
        let instrument = instrument(part)?;
        let value = instrument.values.iter().find(|value| value.at == row.at)?;
        (value, subject_by_the_kind(value, part.which, instrument))
    } else {
        (row, subject(row, part.which))
    };
    if field.refusal() != refusal || is_in_range(field, bytes) {
        return None;
    }
    Some(format!("{subject} {}", predicate(field, bytes)))
}

/// The instrument that the certificate is of.
fn instrument(certificate: &Part) -> Option<&'static Instrument> {
    let kind = certificate.number("kind")?;
    INSTRUMENTS.iter().find(|one| one.kind == kind)
}

fn subject_by_the_kind(value: &Field, which: Which, instrument: &Instrument) -> String {
    let (name, owner) = (value.name, instrument.name);
    format!("the {name} of {}, a {owner}'s,", which.name())
}

fn subject(field: &Field, which: Which) -> String {
    let name = field.name;
    match which {
        Which::Header => format!("the {name}"),
        // The comma ends what the first one begins.
        _ if name.contains(',') => format!("the {name}, of {}", which.name()),
        _ => format!("the {name} of {}", which.name()),
    }
}

/// What is said of a field with these bytes that is out of its range.
pub fn predicate(field: &Field, bytes: &[u8]) -> String {
    let (is, its) = if field.is_plural() {
        ("are", "their")
    } else {
        ("is", "its")
    };
    let not = match contents(field, bytes) {
        Some(contents) => format!("{contents} and not"),
        None => "not".into(),
    };
    let range = field.range;
    if range.contains(' ') {
        format!("{is} {not} in {its} range, {range}{}", in_unit(field))
    } else {
        format!("{is} {not} {range}")
    }
}

/// What stands in the field: a number, and where a letter belongs also the
/// character that it stands for, `97, the character a,`.
fn contents(field: &Field, bytes: &[u8]) -> Option<String> {
    match (field.holds, bytes) {
        (Type::Letter, &[byte]) if byte.is_ascii_graphic() => {
            Some(format!("{byte}, the character {},", char::from(byte)))
        }
        _ => field.holds.number(bytes).map(with_commas),
    }
}

/// The unit behind a range: ` ml`, or what one of it counts, ` in units of 0.1 F`.
fn in_unit(field: &Field) -> String {
    let unit = field.unit;
    if unit.is_empty() {
        String::new()
    } else if !unit.starts_with(|first: char| first.is_ascii_digit()) {
        format!(" {unit}")
    } else if numbers(field.range).is_some() {
        format!(" in units of {unit}")
    } else {
        // A range of more words is set off from its unit.
        format!(", in units of {unit}")
    }
}

/// Whether the field is in its range. Where the range speaks of more than numbers
/// the proved call is believed that it is not.
pub fn is_in_range(field: &Field, bytes: &[u8]) -> bool {
    match (field.range, field.holds.number(bytes)) {
        ("", _) => true,
        ("A to Z each", _) => bytes.iter().all(u8::is_ascii_uppercase),
        ("0 for none or A to Z", _) => matches!(bytes, [0 | b'A'..=b'Z']),
        (letters, None) => bytes == letters.as_bytes(),
        (range, Some(number)) => numbers(range).map_or(false, |range| range.contains(&number)),
    }
}

/// The numbers of a range, where it speaks of nothing else.
fn numbers(range: &str) -> Option<RangeInclusive<i64>> {
    if let Some(least) = range.strip_suffix(" or more") {
        return Some(without_commas(least)?..=i64::MAX);
    }
    // Of two numbers the second follows the first: `1 or 2`.
    let ends = [" to ", " or "]
        .into_iter()
        .find_map(|between| range.split_once(between));
    let (least, greatest) = ends.unwrap_or((range, range));
    Some(without_commas(least)?..=without_commas(greatest)?)
}
