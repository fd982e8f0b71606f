//! Refusal 14: the field of a figure that is in trouble, and what is left over behind
//! the last one.

mod walk;

use super::numbers::with_commas;
use super::ranges;
use super::rows::STEP;
use crate::refusal::Refusal;
use walk::{Of, Placed};

/// No more bytes than that are counted, so that no false number is said of a figure
/// that was read only as far as it counts.
const MOST_COUNTED: usize = 1_000;

/// What is wrong with the figure and where, as a clause. `None` where the figure's
/// bytes do not bear the refusal out.
pub fn clause(refusal: &Refusal, figure: &[u8]) -> Option<String> {
    if !refusal.is_about_the_figure() {
        return None;
    }
    let place = refusal.place as usize;
    let fields = walk::fields(figure);
    let last = fields.last()?;
    if place == figure.len() {
        return incomplete(last);
    }
    if place == last.end() && last.is_complete() {
        return Some(left_over(figure.len() - place));
    }
    let index = fields.iter().position(|field| field.start == place)?;
    let field = fields[index];
    if !field.is_complete() {
        None
    } else if !ranges::is_in_range(field.row, field.bytes) {
        let (subject, predicate) = (field.name(), ranges::predicate(field.row, field.bytes));
        Some(format!("{subject} {predicate}"))
    } else {
        not_in_order(&field, before(&fields, index)?)
    }
}

fn incomplete(field: &Placed) -> Option<String> {
    if field.is_complete() {
        return None;
    }
    let is = if field.row.is_plural() { "are" } else { "is" };
    Some(format!(
        "the file ends before {} {is} complete",
        field.name()
    ))
}

fn left_over(bytes: usize) -> String {
    let left = match bytes {
        1 => "1 byte is".into(),
        MOST_COUNTED.. => format!("{} bytes or more are", with_commas(MOST_COUNTED as i64)),
        _ => format!("{bytes} bytes are"),
    };
    format!("{left} left over behind the last step")
}

/// The same field of the step before: none for the first of a list.
fn before<'a>(fields: &'a [Placed<'a>], index: usize) -> Option<&'a Placed<'a>> {
    match fields[index].of {
        Of::Step(_, 2..) => fields.get(index.checked_sub(STEP.fields.len())?),
        _ => None,
    }
}

/// The clause for a field that is in its range, and that of the step before. What has
/// no range is a distance.
fn not_in_order(field: &Placed, before: &Placed) -> Option<String> {
    let (own, last) = (field.number()?, before.number()?);
    let (name, unit) = (field.name(), field.row.unit);
    let [shown, shown_last] = [own, last].map(with_commas);
    if field.row.range.is_empty() {
        (own <= last).then(|| {
            format!(
                "{name} is {shown} and not above that of the step before, {shown_last}, in units \
                 of {unit}"
            )
        })
    } else {
        (own > last)
            .then(|| format!("{name} are {shown} and above those of the step before, {shown_last}"))
    }
}
