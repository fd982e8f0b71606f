//! A run worked out: its twenty lines and its findings, and their bytes.

use crate::answer::{Reason, Refusal};
use crate::certificates::Chosen;
use crate::figure::Figure;
use crate::findings::{self, Class, Finding};
use crate::job::{Job, Run};
use crate::lines::{Lines, LINE_COUNT};

/// Present 0 or 1, then the value as i64.
const LINE_LENGTH: usize = 9;

/// Rule, class, place as u16.
const FINDING_LENGTH: usize = 4;

pub struct Worked {
    pub lines: Lines,
    pub findings: Vec<Finding>,
}

/// Works out a run of the job, by a figure if there is one.
pub fn work(figure: Option<&Figure>, job: &Job, run: &Run) -> Worked {
    let chosen = Chosen::for_run(run, &job.certificates);
    let lines = Lines::of(job.version, run, &chosen);
    let findings = findings::of(job.version, run, figure, &chosen, &lines);
    Worked { lines, findings }
}

impl Worked {
    /// A run is accepted when nothing found is a fault; notes do not count.
    pub fn accepted(&self) -> bool {
        self.findings.iter().all(|one| one.class == Class::Note)
    }

    /// Writes both outputs, or neither when either is too short.
    pub fn write(&self, lines: &mut [u8], findings: &mut [u8]) -> Result<(), Refusal> {
        let needed = self.findings.len() * FINDING_LENGTH;
        if lines.len() < LINE_COUNT * LINE_LENGTH || findings.len() < needed {
            return Err(Refusal::new(Reason::OutputTooShort, 0));
        }
        for (line, bytes) in self
            .lines
            .all()
            .iter()
            .zip(lines.chunks_exact_mut(LINE_LENGTH))
        {
            bytes[0] = u8::from(line.is_some());
            bytes[1..].copy_from_slice(&line.unwrap_or(0).to_le_bytes());
        }
        for (finding, bytes) in self
            .findings
            .iter()
            .zip(findings.chunks_exact_mut(FINDING_LENGTH))
        {
            bytes.copy_from_slice(&finding.bytes());
        }
        Ok(())
    }
}
