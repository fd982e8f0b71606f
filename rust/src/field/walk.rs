//! Where each record of a job stands, by the job's own version and counts.

use super::part::{Part, Which};
use super::version::Version;

/// The records in file order, the last of them incomplete if the job ends within
/// one. Every record has bytes, so there are no more of them than the job has
/// bytes, whatever its counts say.
pub fn parts(job: &[u8]) -> Vec<Part<'_>> {
    let mut walk = Walk {
        job,
        version: Version::One,
        parts: Vec::new(),
    };
    // Where the job ends too early, the walk has what there is.
    let _ = walk.job();
    walk.parts
}

struct Walk<'a> {
    job: &'a [u8],
    /// The job's own, once its header is read.
    version: Version,
    parts: Vec<Part<'a>>,
}

/// The job ended within a record.
struct Ended;

impl<'a> Walk<'a> {
    fn job(&mut self) -> Result<(), Ended> {
        let header = self.next(Which::Header)?;
        self.version = Version::numbered(header.number("version"));
        for index in 1..=count(&header, "number of certificates") {
            self.next(Which::Certificate(index))?;
        }
        for run in 1..=count(&header, "number of runs") {
            self.run(run)?;
        }
        Ok(())
    }

    fn run(&mut self, run: usize) -> Result<(), Ended> {
        let head = self.next(Which::Run(run))?;
        for index in 1..=count(&head, "number of points") {
            self.next(Which::Point(run, index))?;
        }
        for index in 1..=count(&head, "number of segments") {
            self.next(Which::Segment(run, index))?;
        }
        for index in 1..=count(&head, "number of weighings") {
            self.next(Which::Weighing(run, index))?;
        }
        Ok(())
    }

    fn next(&mut self, which: Which) -> Result<Part<'a>, Ended> {
        let start = self
            .parts
            .last()
            .map_or(0, |last| last.start + last.bytes.len());
        let left = &self.job[start..];
        let length = which.record().length_in(self.version).min(left.len());
        let part = Part {
            which,
            version: self.version,
            start,
            bytes: &left[..length],
        };
        self.parts.push(part);
        if part.is_complete() {
            Ok(part)
        } else {
            Err(Ended)
        }
    }
}

fn count(head: &Part, field: &str) -> usize {
    let count = head.number(field).and_then(|count| count.try_into().ok());
    count.unwrap_or(0)
}
