//! A run reduced: its sheet, its findings, and whether it stands.

use std::fmt;

use crate::finding::Finding;
use crate::line::Line;
use crate::outputs::LINE_COUNT;

/// One run's sheet. The lines stand in order, so that line 18 is `lines[17]`.
///
/// It is displayed as the run in words: whether it stands, then a row a line and
/// a sentence a finding, without a line end after the last.
///
/// ```no_run
/// # fn main() -> Result<(), Box<dyn std::error::Error>> {
/// let job = std::fs::read("examples/worked.job")?;
/// let run = leverbonnet::reduce_run(&job, 7)?;
/// assert!(run.accepted);
/// println!("{run}");
/// # Ok(())
/// # }
/// ```
#[derive(Clone, Debug, PartialEq, Eq)]
pub struct Reduced {
    pub number: u16,
    pub accepted: bool,
    pub lines: [Line; LINE_COUNT],
    /// By rule and then by place.
    pub findings: Vec<Finding>,
}

impl fmt::Display for Reduced {
    fn fmt(&self, f: &mut fmt::Formatter) -> fmt::Result {
        let verdict = if self.accepted { "ACCEPTED" } else { "VOID" };
        write!(f, "Run {} is {verdict}.", self.number)?;
        for line in &self.lines {
            write!(f, "\n{line}")?;
        }
        for finding in &self.findings {
            write!(f, "\n{finding}")?;
        }
        Ok(())
    }
}
