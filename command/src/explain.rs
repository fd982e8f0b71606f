//! The findings of a job explained, or the line of its refusal. Where a figure is asked
//! for they go by it.

use leverbonnet::Error;
use words::{Explain, Part, Status};

use crate::calls;
use crate::page::{self, Page};

/// Prints all that is asked for, or the line of a refusal alone.
pub fn printed(explain: &Explain) -> Status {
    page::by_figure(&explain.figure, false, |figure| {
        let mut page = Page::of(&explain.source, false);
        page.put_job(|job| explained(explain.part, figure, job));
        page.printed()
    })
}

fn explained(part: Part, figure: Option<&[u8]>, job: &[u8]) -> Result<Vec<u8>, Error> {
    let job = Job {
        bytes: job,
        figure,
        sheets: calls::plain(figure, job)?,
    };
    match part {
        Part::Job => {
            let runs = leverbonnet::run_numbers(job.bytes)?.into_iter();
            let runs = runs.map(|run| job.run(run));
            Ok(runs.collect::<Result<Vec<_>, Error>>()?.concat())
        }
        Part::Run { run } => job.run(run),
        Part::Finding { run, rule, place } => {
            let finding = job.finding(run, rule, place)?;
            Ok([job.run_line(run), &finding].concat())
        }
    }
}

/// A job that is read, the figure that it goes by, and its plain sheets.
struct Job<'a> {
    bytes: &'a [u8],
    figure: Option<&'a [u8]>,
    sheets: Vec<u8>,
}

impl Job<'_> {
    /// The run's line, and each of its findings explained.
    fn run(&self, run: u16) -> Result<Vec<u8>, Error> {
        let findings = calls::reduced(self.figure, self.bytes, run)?.findings;
        let mut text = self.run_line(run).to_vec();
        for finding in findings {
            text.extend(self.finding(run, finding.rule.into(), finding.place)?);
        }
        Ok(text)
    }

    fn finding(&self, run: u16, rule: u16, place: u16) -> Result<Vec<u8>, Error> {
        match self.figure {
            Some(figure) => {
                leverbonnet::explanation_text_by_figure(figure, self.bytes, run, rule, place)
            }
            None => leverbonnet::explanation_text(self.bytes, run, rule, place),
        }
    }

    /// The run's first line of the sheets; of a run that the job has there is one.
    fn run_line(&self, run: u16) -> &[u8] {
        let start = format!("RUN {run} ").into_bytes();
        let mut lines = self.sheets.split_inclusive(|&byte| byte == b'\n');
        let line = lines.find(|line| line.starts_with(&start));
        line.unwrap_or_default()
    }
}
