//! A record where it stands in a job.

use super::numbers::ordinal;
use super::rows::{Field, Record, CERTIFICATE, HEADER, POINT, RUN, SEGMENT, WEIGHING};
use super::version::Version;

/// Which record of a job. Certificates and runs are counted from 1 in the job;
/// points, segments and weighings in their run, and the run's count comes first.
#[derive(Clone, Copy, Debug, PartialEq, Eq)]
pub enum Which {
    Header,
    Certificate(usize),
    Run(usize),
    Point(usize, usize),
    Segment(usize, usize),
    Weighing(usize, usize),
}

/// A record, the job's version, where it starts, and its bytes: fewer than it has
/// where the job ends within it.
#[derive(Clone, Copy, Debug)]
pub struct Part<'a> {
    pub which: Which,
    pub version: Version,
    pub start: usize,
    pub bytes: &'a [u8],
}

impl Which {
    pub fn record(self) -> &'static Record {
        match self {
            Which::Header => &HEADER,
            Which::Certificate(_) => &CERTIFICATE,
            Which::Run(_) => &RUN,
            Which::Point(..) => &POINT,
            Which::Segment(..) => &SEGMENT,
            Which::Weighing(..) => &WEIGHING,
        }
    }

    /// Its name in a sentence: `point 5 of the 2nd run`.
    pub fn name(self) -> String {
        match self {
            Which::Header => "the header".into(),
            Which::Certificate(index) => format!("the {} certificate", ordinal(index)),
            Which::Run(index) => format!("the {} run", ordinal(index)),
            Which::Point(run, index) => format!("point {index} of the {} run", ordinal(run)),
            Which::Segment(run, index) => format!("segment {index} of the {} run", ordinal(run)),
            Which::Weighing(run, index) => format!("weighing {index} of the {} run", ordinal(run)),
        }
    }
}

impl<'a> Part<'a> {
    pub fn record(&self) -> &'static Record {
        self.which.record()
    }

    /// How many bytes it has when it is complete.
    pub fn length(&self) -> usize {
        self.record().length_in(self.version)
    }

    pub fn is_complete(&self) -> bool {
        self.bytes.len() == self.length()
    }

    /// The field at that place of it.
    pub fn field_at(&self, at: usize) -> Option<&'static Field> {
        self.record().field_at(self.version, at)
    }

    /// Where one of its fields stands in it.
    pub fn place_of(&self, field: &Field) -> Option<usize> {
        self.record().place_in(self.version, field)
    }

    /// The bytes of one of its fields, if it is complete.
    pub fn bytes_of(&self, field: &Field) -> Option<&'a [u8]> {
        let at = self.place_of(field)?;
        let bytes = self.bytes.get(at..at + field.holds.length())?;
        self.is_complete().then_some(bytes)
    }

    /// The number in its field of that name, if it is complete.
    pub fn number(&self, name: &str) -> Option<i64> {
        let field = self.record().field(name)?;
        field.holds.number(self.bytes_of(field)?)
    }
}
