//! Refusal 6: a certificate or a run against those before it.

use super::numbers::with_commas;
use super::part::{Part, Which};
use super::version::Version;

/// The clause for a part and those before it.
pub fn repeated(before: &[Part], part: &Part) -> Option<String> {
    match part.which {
        Which::Certificate(_) => same_certificate(before, part),
        Which::Run(_) => number_not_above(before, part),
        _ => None,
    }
}

fn same_certificate(before: &[Part], part: &Part) -> Option<String> {
    let own = before_the_values(part)?;
    let mut earlier = before.iter().filter_map(before_the_values);
    earlier.find(|earlier| *earlier == own)?;
    let name = part.which.name();
    let repeated = match part.version {
        Version::One => "kind, maker, serial and day",
        Version::Two => "kind, maker, serial, letter and day",
    };
    Some(format!("{name} repeats {repeated} of an earlier one"))
}

/// What two certificates may not share, all that stands before their values:
/// `None` for what is no complete certificate.
fn before_the_values<'a>(part: &Part<'a>) -> Option<&'a [u8]> {
    let values = part.place_of(part.record().field("first value")?)?;
    part.is_complete().then(|| &part.bytes[..values])
}

fn number_not_above(before: &[Part], part: &Part) -> Option<String> {
    let number = |part: &Part| part.number("run number");
    let (own, last) = (number(part)?, before.iter().rev().find_map(number)?);
    if own > last {
        return None;
    }
    let (name, own, last) = (part.which.name(), with_commas(own), with_commas(last));
    Some(format!(
        "the number of {name}, {own}, is not above that of the run before, {last}"
    ))
}
