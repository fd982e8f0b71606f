//! The two versions of a job file, and where the fields of a record stand in each.
//! In version 2 a letter stands behind each serial, and what follows it in the
//! record stands 1 further.

use super::rows::{Field, Record, Type};

/// The version of a job file.
#[derive(Clone, Copy, Debug, PartialEq, Eq)]
pub enum Version {
    One,
    Two,
}

impl Version {
    /// The one with that number. Of a job with another number nothing counts but
    /// its header, which is the same in both.
    pub(super) fn numbered(number: Option<i64>) -> Self {
        match number {
            Some(2) => Version::Two,
            _ => Version::One,
        }
    }
}

impl Record {
    /// How many bytes it has in that version.
    pub fn length_in(&self, version: Version) -> usize {
        match version {
            Version::One => self.length,
            Version::Two => self.length + letters(self.fields),
        }
    }

    /// Where that field of its stands in that version: nowhere if it is a letter
    /// and the version is 1.
    pub fn place_in(&self, version: Version, field: &Field) -> Option<usize> {
        let index = self.fields.iter().position(|one| one == field)?;
        match version {
            Version::One if field.holds == Type::Letter => None,
            Version::One => Some(field.at),
            Version::Two => Some(field.at + letters(&self.fields[..index])),
        }
    }

    /// The field at that place in that version.
    pub fn field_at(&self, version: Version, at: usize) -> Option<&'static Field> {
        let mut fields = self.fields.iter();
        fields.find(|field| self.place_in(version, field) == Some(at))
    }
}

/// How many of the fields are letters.
fn letters(fields: &[Field]) -> usize {
    let letters = fields.iter().filter(|field| field.holds == Type::Letter);
    letters.count()
}
