//! Why a typed call gave nothing.

use std::fmt;

use crate::refusal::Refusal;

#[derive(Clone, Debug, PartialEq, Eq)]
pub enum Error {
    /// The proved call was made, and refused.
    Refused(Refusal),
    /// The proved call was not made, or its answer was lost: why the program
    /// `calls` could not be asked. Never given where the library is linked.
    Unreached(String),
}

impl fmt::Display for Error {
    fn fmt(&self, f: &mut fmt::Formatter) -> fmt::Result {
        match self {
            Error::Refused(refusal) => refusal.fmt(f),
            Error::Unreached(why) => write!(f, "the proved calls were not reached: {why}"),
        }
    }
}

impl std::error::Error for Error {}
