//! A refusal: its number, its place, and its cause in words.

use std::fmt;

use crate::field;
use crate::texts;

/// The refusals up to this number are given for a byte of the job.
const LAST_OF_A_JOB: u32 = 8;

/// The number of the only refusal that is given for a figure.
const BAD_FIGURE: u32 = 14;

/// A refusal's number, and its place: a byte of the job for 1 to 8, of the figure for
/// 14; 9, 10, 11 and 15 are about no byte.
#[derive(Clone, Copy, Debug, PartialEq, Eq)]
pub struct Refusal {
    pub number: u32,
    pub place: u32,
}

impl Refusal {
    /// Why it was given, as a clause to stand after a colon.
    pub fn cause(&self) -> &'static str {
        texts::refusal(self.number).map_or(texts::NO_REFUSAL, |text| text.clause)
    }

    /// What is wrong with the job that it was given for and where, as a clause: the
    /// record, the field, its value and its range, or the seconds. It is the
    /// [cause](Refusal::cause) where there is no more to say, and where it was given
    /// for another job.
    ///
    /// ```
    /// use leverbonnet::Refusal;
    ///
    /// let refusal = Refusal { number: 4, place: 7 };
    /// assert_eq!(
    ///     refusal.in_job(b"SRJ\x01\0\0\0\0\0"),
    ///     "the number of runs is 0 and not in its range, 1 to 16"
    /// );
    /// ```
    pub fn in_job(&self, job: &[u8]) -> String {
        field::clause(self, job).unwrap_or_else(|| self.cause().into())
    }

    /// What is wrong with the figure that it was given for and where, as a clause: the
    /// field, its value and its range, or the value of the step before. It is the
    /// [cause](Refusal::cause) where it was given for another figure or for a job.
    ///
    /// ```
    /// use leverbonnet::Refusal;
    ///
    /// let refusal = Refusal { number: 14, place: 5 };
    /// assert_eq!(
    ///     refusal.in_figure(b"FIG\x01\0\0"),
    ///     "the number of steps from the last disturbance is 0 and not in its range, 1 to 16"
    /// );
    /// ```
    pub fn in_figure(&self, figure: &[u8]) -> String {
        field::figure_clause(self, figure).unwrap_or_else(|| self.cause().into())
    }

    /// Whether it was given for a byte of the job.
    pub fn is_about_a_byte_of_the_job(&self) -> bool {
        self.number <= LAST_OF_A_JOB
    }

    /// Whether it was given for the figure, and no job was read.
    pub fn is_about_the_figure(&self) -> bool {
        self.number == BAD_FIGURE
    }
}

impl fmt::Display for Refusal {
    fn fmt(&self, f: &mut fmt::Formatter) -> fmt::Result {
        write!(f, "refusal {}", self.number)?;
        if self.is_about_a_byte_of_the_job() {
            write!(f, " at byte {}", self.place)?;
        }
        if self.is_about_the_figure() {
            write!(f, " at byte {} of the figure", self.place)?;
        }
        write!(f, ": {}", self.cause())
    }
}

impl std::error::Error for Refusal {}
