//! What a failed comparison says: the case, its figure, the smallest job found for it,
//! and what was given on that where the same should have been.

use std::fmt;

use crate::agreement::Difference;
use crate::call::hex;

pub struct Failure {
    pub case: String,
    /// None for calls that take no figure.
    pub figure: Option<Vec<u8>>,
    /// None for calls that take no job.
    pub job: Option<Vec<u8>>,
    pub difference: Difference,
}

impl fmt::Display for Failure {
    fn fmt(&self, f: &mut fmt::Formatter) -> fmt::Result {
        writeln!(f, "DISAGREEMENT in {}", self.case)?;
        if let Some(figure) = &self.figure {
            writeln!(f, "figure, {} bytes:", figure.len())?;
            writeln!(f, "  {}", hex(figure))?;
        }
        if let Some(job) = &self.job {
            writeln!(f, "smallest job found, {} bytes:", job.len())?;
            writeln!(f, "  {}", hex(job))?;
        }
        writeln!(f, "on {}", self.difference.what)?;
        write!(f, "{}", self.difference.given)
    }
}
