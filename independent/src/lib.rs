//! The independent program: the same twelve calls and the same printed sheet as
//! the proved library, written from the rules alone. It shares nothing with the
//! library, so that where the two agree neither can be repeating the other's slip.
//!
//! Each call answers one u64. The high 32 bits hold a refusal's number, or 0
//! for success; the low 32 bits hold the refusal's place, or what succeeded.
//! A refusal changes no lent byte; success changes only the bytes it needs.

#![forbid(unsafe_code)]

mod answer;
mod arithmetic;
mod certificate_days;
mod certificates;
mod condition;
mod diameter;
mod explanation;
pub mod figure;
mod findings;
pub mod job;
mod layout;
mod leak;
mod lines;
mod points;
mod print;
mod read;
mod rules;
pub mod samples;
mod worked;

pub use answer::{Reason, Refusal};
pub use certificates::Chosen;
pub use findings::{Class, Finding};
pub use layout::{rect_distances, round_distances};
pub use lines::{Isokinetic, Lines, LINE_COUNT};
pub use points::{is_allowed, is_undisturbed, least_points};
pub use points::{UNDISTURBED_FROM_LAST, UNDISTURBED_TO_NEXT};
pub use print::{explanations, explanations_by_figure, sheet, sheet_by_figure};
pub use read::read;
pub use worked::{work, Worked};

use answer::{answered, written};
use explanation::Explanation;
use job::{Job, Run};
use read::read_both;

/// What `reduce` adds to the number of findings when the run is accepted.
pub const ACCEPTED: u32 = 65_536;

/// Works the run of that number into `lines` (20 lines of 9 bytes) and
/// `findings` (4 bytes each). Succeeds with the number of findings, plus
/// [`ACCEPTED`] when none of them is a fault.
pub fn reduce(job: &[u8], run_number: u16, lines: &mut [u8], findings: &mut [u8]) -> u64 {
    answered(reduced(None, job, run_number, lines, findings))
}

/// The same by a figure, which is read before the job and may be refused with 14.
pub fn reduce_by_figure(
    figure: &[u8],
    job: &[u8],
    run_number: u16,
    lines: &mut [u8],
    findings: &mut [u8],
) -> u64 {
    answered(reduced(Some(figure), job, run_number, lines, findings))
}

fn reduced(
    figure: Option<&[u8]>,
    job: &[u8],
    run_number: u16,
    lines: &mut [u8],
    findings: &mut [u8],
) -> Result<u32, Refusal> {
    let (figure, job) = read_both(figure, job)?;
    let worked = work(figure.as_ref(), &job, run_of(&job, run_number)?);
    worked.write(lines, findings)?;
    let accepted = if worked.accepted() { ACCEPTED } else { 0 };
    Ok(worked.findings.len() as u32 + accepted)
}

fn run_of(job: &Job, run_number: u16) -> Result<&Run, Refusal> {
    let mut runs = job.runs.iter();
    runs.find(|run| run.number == run_number)
        .ok_or(Refusal::new(Reason::NoSuchRun, 0))
}

/// Writes why the run of that number has the finding of that rule at that place, as
/// bytes. Succeeds with their number.
pub fn explain(job: &[u8], run_number: u16, rule: u16, place: u16, out: &mut [u8]) -> u64 {
    let explanation = explained(None, job, run_number, rule, place);
    answered(explanation.and_then(|explanation| written(&explanation.bytes(), out)))
}

/// The same by a figure, which is read before the job and may be refused with 14.
pub fn explain_by_figure(
    figure: &[u8],
    job: &[u8],
    run_number: u16,
    rule: u16,
    place: u16,
    out: &mut [u8],
) -> u64 {
    let explanation = explained(Some(figure), job, run_number, rule, place);
    answered(explanation.and_then(|explanation| written(&explanation.bytes(), out)))
}

/// Writes it as text. Succeeds with the number of characters written.
pub fn explain_text(job: &[u8], run_number: u16, rule: u16, place: u16, out: &mut [u8]) -> u64 {
    let explanation = explained(None, job, run_number, rule, place);
    answered(explanation.and_then(|explanation| written(explanation.text().as_bytes(), out)))
}

/// The same by a figure, which is read before the job and may be refused with 14.
pub fn explain_text_by_figure(
    figure: &[u8],
    job: &[u8],
    run_number: u16,
    rule: u16,
    place: u16,
    out: &mut [u8],
) -> u64 {
    let explanation = explained(Some(figure), job, run_number, rule, place);
    answered(explanation.and_then(|explanation| written(explanation.text().as_bytes(), out)))
}

fn explained(
    figure: Option<&[u8]>,
    job: &[u8],
    run_number: u16,
    rule: u16,
    place: u16,
) -> Result<Explanation, Refusal> {
    let (figure, job) = read_both(figure, job)?;
    let run = run_of(&job, run_number)?;
    Explanation::of(figure.as_ref(), &job, run, rule, place)
        .ok_or(Refusal::new(Reason::NoSuchFinding, 0))
}

/// Succeeds with the number of runs in the job.
pub fn run_count(job: &[u8]) -> u64 {
    answered(read(job).map(|job| job.runs.len() as u32))
}

/// Succeeds with the number of the run that stands at `index`, counted from 0.
/// Past the last run there is none: refusal 10.
pub fn run_number(job: &[u8], index: u16) -> u64 {
    answered(read(job).and_then(|job| {
        job.runs
            .get(usize::from(index))
            .map(|run| u32::from(run.number))
            .ok_or(Refusal::new(Reason::NoSuchRun, 0))
    }))
}

/// Writes the distances of the points on one diameter of a round stack, from
/// the near wall to the far one. Succeeds with the number of bytes written.
pub fn round_layout(points: u16, diameter: u16, nozzle: u16, out: &mut [u8]) -> u64 {
    answered(
        round_distances(points, diameter, nozzle)
            .and_then(|distances| layout::write(&distances, out)),
    )
}

/// Writes the centers of a rectangular stack's cells, the first side fastest.
/// Succeeds with the number of bytes written.
pub fn rect_layout(points: u16, first: u16, second: u16, out: &mut [u8]) -> u64 {
    answered(rect_distances(points, first, second).and_then(|centers| {
        let distances: Vec<u32> = centers.into_iter().flatten().collect();
        layout::write(&distances, out)
    }))
}

/// Writes the printed sheets of a job that is read. Succeeds with the number of
/// characters written.
pub fn sheet_text(job: &[u8], out: &mut [u8]) -> u64 {
    answered(print::write(None, job, out))
}

/// The same by a figure, which is read before the job and may be refused with 14.
pub fn sheet_text_by_figure(figure: &[u8], job: &[u8], out: &mut [u8]) -> u64 {
    answered(print::write(Some(figure), job, out))
}
