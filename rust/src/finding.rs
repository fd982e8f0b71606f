//! A finding: a rule that a run breaks, and where.

use std::fmt;

use crate::outputs::FINDING_LENGTH;
use crate::texts;

/// One fault makes a run void; notes do not. Findings of rule 11 are notes, and so
/// are those of rule 5 in a job of version 1; in one of version 2 they are faults,
/// as those of all other rules are in both.
#[derive(Clone, Copy, Debug, PartialEq, Eq)]
pub enum Class {
    Fault,
    Note,
}

/// A rule found broken. The place is the point, segment or weighing, counted
/// from 1, or 0 for the whole run.
///
/// It is displayed as a sentence:
///
/// ```
/// use leverbonnet::{Class, Finding};
///
/// let note = Finding { rule: 11, class: Class::Note, place: 1 };
/// assert_eq!(
///     note.to_string(),
///     "Note 11, segment 1: the leak rate is above the allowance."
/// );
/// ```
///
/// Of rule 5 the class tells which factor was taken, because both go by the job's
/// version:
///
/// ```
/// # use leverbonnet::{Class, Finding};
/// let note = Finding { rule: 5, class: Class::Note, place: 0 };
/// assert!(note.to_string().ends_with(", and Y is the lower of the two."));
/// let fault = Finding { rule: 5, class: Class::Fault, place: 0 };
/// assert!(fault.to_string().ends_with(", and Y is the earlier of the two."));
/// ```
#[derive(Clone, Copy, Debug, PartialEq, Eq)]
pub struct Finding {
    pub rule: u8,
    pub class: Class,
    pub place: u16,
}

impl Finding {
    /// From the 4 bytes that `reduce` writes of it: the rule; the class, 2 for a
    /// note and 1 for a fault; the place. Another class, which no call writes, is
    /// taken for a fault.
    pub fn from_bytes(bytes: &[u8; FINDING_LENGTH]) -> Self {
        let [rule, class, place @ ..] = *bytes;
        Finding {
            rule,
            class: match class {
                2 => Class::Note,
                _ => Class::Fault,
            },
            place: u16::from_le_bytes(place),
        }
    }
}

impl fmt::Display for Class {
    fn fmt(&self, f: &mut fmt::Formatter) -> fmt::Result {
        f.write_str(match self {
            Class::Fault => "Fault",
            Class::Note => "Note",
        })
    }
}

impl fmt::Display for Finding {
    fn fmt(&self, f: &mut fmt::Formatter) -> fmt::Result {
        let (clause, counted) = match texts::rule(self.rule) {
            Some(rule) => (rule.clause, rule.place),
            None => (texts::NO_RULE, ""),
        };
        write!(f, "{} {}", self.class, self.rule)?;
        match (self.place, counted) {
            (0, _) => {}
            (place, "") => write!(f, ", place {place}")?,
            (place, counted) => write!(f, ", {counted} {place}")?,
        }
        write!(f, ": {clause}")?;
        if let Some(text) = texts::class(self.rule, self.class) {
            write!(f, ", and {}", text.clause)?;
        }
        f.write_str(".")
    }
}
