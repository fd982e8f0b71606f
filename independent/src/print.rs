//! The printed sheet of a whole job, and its findings explained.

use crate::answer::{written, Refusal};
use crate::explanation::Explanation;
use crate::figure::Figure;
use crate::findings::{Class, Finding};
use crate::job::{Job, Run};
use crate::read::read_both;
use crate::worked::{work, Worked};

/// All the job's runs in file order, or the one line of its refusal.
pub fn sheet(job: &[u8]) -> Vec<u8> {
    printed(runs(None, job, run_text))
}

/// The same by a figure, which may be what is refused.
pub fn sheet_by_figure(figure: &[u8], job: &[u8]) -> Vec<u8> {
    printed(runs(Some(figure), job, run_text))
}

/// Each run's first line and all its findings explained, or the line of the job's refusal.
pub fn explanations(job: &[u8]) -> Vec<u8> {
    printed(runs(None, job, explained_run_text))
}

/// The same by a figure, which may be what is refused.
pub fn explanations_by_figure(figure: &[u8], job: &[u8]) -> Vec<u8> {
    printed(runs(Some(figure), job, explained_run_text))
}

fn printed(runs: Result<String, Refusal>) -> Vec<u8> {
    let text = match runs {
        Ok(text) => text,
        Err(refusal) => format!("REFUSED {} {}\n", refusal.number(), refusal.place),
    };
    text.into_bytes()
}

/// Writes the text of all runs and answers how many characters it has; none when
/// the output is too short for all of them.
pub fn write(figure: Option<&[u8]>, job: &[u8], out: &mut [u8]) -> Result<u32, Refusal> {
    written(runs(figure, job, run_text)?.as_bytes(), out)
}

fn runs(
    figure: Option<&[u8]>,
    job: &[u8],
    text: fn(Option<&Figure>, &Job, &Run) -> String,
) -> Result<String, Refusal> {
    let (figure, job) = read_both(figure, job)?;
    let runs = job.runs.iter();
    Ok(runs.map(|run| text(figure.as_ref(), &job, run)).collect())
}

fn run_text(figure: Option<&Figure>, job: &Job, run: &Run) -> String {
    let worked = work(figure, job, run);
    let mut text = verdict_text(run, &worked);
    for (line, number) in worked.lines.all().iter().zip(1..) {
        text += &line_text(number, *line);
    }
    for finding in &worked.findings {
        text += &finding_text(*finding);
    }
    text
}

fn explained_run_text(figure: Option<&Figure>, job: &Job, run: &Run) -> String {
    let worked = work(figure, job, run);
    let mut text = verdict_text(run, &worked);
    for Finding { rule, place, .. } in worked.findings {
        let explanation = Explanation::of(figure, job, run, rule.into(), place);
        text += &explanation.expect("the run has its findings").text();
    }
    text
}

fn verdict_text(run: &Run, worked: &Worked) -> String {
    let verdict = if worked.accepted() {
        "ACCEPTED"
    } else {
        "VOID"
    };
    format!("RUN {} {verdict}\n", run.number)
}

fn line_text(number: u32, line: Option<i64>) -> String {
    match line {
        Some(value) => format!("{number} {value}\n"),
        None => format!("{number} -\n"),
    }
}

pub fn finding_text(finding: Finding) -> String {
    let class = match finding.class {
        Class::Fault => "FAULT",
        Class::Note => "NOTE",
    };
    format!("{class} {} {}\n", finding.rule, finding.place)
}
