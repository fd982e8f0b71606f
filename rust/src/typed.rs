//! The calls over Rust types: what succeeded, or why nothing did.

use crate::error::Error;
use crate::explanation::Explanation;
use crate::finding::Finding;
use crate::line::Line;
use crate::outputs::{
    ACCEPTED, DISTANCE_LENGTH, FINDING_LENGTH, LINES_LENGTH, LINE_COUNT, LINE_LENGTH,
    MOST_EXPLANATION, MOST_EXPLANATION_TEXT, MOST_FINDINGS, MOST_RECTANGULAR, MOST_ROUND,
    MOST_TEXT,
};
use crate::reduced::Reduced;
use crate::way::{calls, Answer};

/// Works the run of that number.
pub fn reduce_run(job: &[u8], number: u16) -> Result<Reduced, Error> {
    reduced(number, |lines, findings| {
        calls::reduce(job, number, lines, findings).value()
    })
}

/// As [`reduce_run`], with the figure in place of the house rule's 24 and 25 points.
pub fn reduce_run_by_figure(figure: &[u8], job: &[u8], number: u16) -> Result<Reduced, Error> {
    reduced(number, |lines, findings| {
        calls::reduce_by_figure(figure, job, number, lines, findings).value()
    })
}

/// The run of that number from what the call writes and answers.
fn reduced(
    number: u16,
    call: impl FnOnce(&mut [u8], &mut [u8]) -> Result<u32, Error>,
) -> Result<Reduced, Error> {
    let mut lines = [0; LINES_LENGTH];
    let mut findings = [0; MOST_FINDINGS * FINDING_LENGTH];
    let value = call(&mut lines, &mut findings)?;
    let count = (value % ACCEPTED) as usize;
    Ok(Reduced {
        number,
        accepted: value >= ACCEPTED,
        lines: lines_from(&lines),
        findings: findings_from(&findings[..count * FINDING_LENGTH]),
    })
}

/// The numbers of the job's runs in file order.
pub fn run_numbers(job: &[u8]) -> Result<Vec<u16>, Error> {
    let count = calls::run_count(job).value()? as u16;
    (0..count)
        .map(|index| Ok(calls::run_number(job, index).value()? as u16))
        .collect()
}

/// The distances of the points on a round stack's diameter, 0.001 in.
pub fn round_distances(points: u16, diameter: u16, nozzle: u16) -> Result<Vec<u32>, Error> {
    let mut out = [0; MOST_ROUND * DISTANCE_LENGTH];
    let written = calls::round_layout(points, diameter, nozzle, &mut out).value()?;
    Ok(distances_from(&out[..written as usize]))
}

/// The centers of a rectangular stack's cells, 0.001 in along each side.
pub fn rect_distances(points: u16, first: u16, second: u16) -> Result<Vec<[u32; 2]>, Error> {
    let mut out = [0; MOST_RECTANGULAR * DISTANCE_LENGTH];
    let written = calls::rect_layout(points, first, second, &mut out).value()?;
    let distances = distances_from(&out[..written as usize]);
    Ok(distances
        .chunks_exact(2)
        .map(|pair| [pair[0], pair[1]])
        .collect())
}

/// The characters that the program `sheet` prints for a job that is read.
pub fn sheet_text(job: &[u8]) -> Result<Vec<u8>, Error> {
    text(MOST_TEXT, |out| calls::sheet_text(job, out).value())
}

/// As [`sheet_text`], with the figure in place of the house rule's 24 and 25 points.
pub fn sheet_text_by_figure(figure: &[u8], job: &[u8]) -> Result<Vec<u8>, Error> {
    text(MOST_TEXT, |out| {
        calls::sheet_text_by_figure(figure, job, out).value()
    })
}

/// Why the run has the finding of that rule at that place; refused with 15 if it does
/// not have it.
///
/// ```no_run
/// # fn main() -> Result<(), Box<dyn std::error::Error>> {
/// let job = std::fs::read("examples/worked.job")?;
/// for finding in leverbonnet::reduce_run(&job, 7)?.findings {
///     let (rule, place) = (finding.rule.into(), finding.place);
///     let explanation = leverbonnet::explain_finding(&job, 7, rule, place)?;
///     println!("{:?}", explanation.conditions);
/// }
/// # Ok(())
/// # }
/// ```
pub fn explain_finding(job: &[u8], run: u16, rule: u16, place: u16) -> Result<Explanation, Error> {
    explanation(|out| calls::explain(job, run, rule, place, out).value())
}

/// As [`explain_finding`], of the findings that [`reduce_run_by_figure`] gives.
pub fn explain_finding_by_figure(
    figure: &[u8],
    job: &[u8],
    run: u16,
    rule: u16,
    place: u16,
) -> Result<Explanation, Error> {
    explanation(|out| calls::explain_by_figure(figure, job, run, rule, place, out).value())
}

/// The explanation that the call writes.
fn explanation(call: impl FnOnce(&mut [u8]) -> Result<u32, Error>) -> Result<Explanation, Error> {
    let mut out = [0; MOST_EXPLANATION];
    let written = call(&mut out)?;
    Ok(Explanation::from_bytes(&out[..written as usize]))
}

/// The same as characters: the finding's line of the plain sheet and under it, two
/// spaces in, a line for each condition and for each certificate day.
pub fn explanation_text(job: &[u8], run: u16, rule: u16, place: u16) -> Result<Vec<u8>, Error> {
    text(MOST_EXPLANATION_TEXT, |out| {
        calls::explain_text(job, run, rule, place, out).value()
    })
}

/// As [`explanation_text`], of the findings that [`reduce_run_by_figure`] gives.
pub fn explanation_text_by_figure(
    figure: &[u8],
    job: &[u8],
    run: u16,
    rule: u16,
    place: u16,
) -> Result<Vec<u8>, Error> {
    text(MOST_EXPLANATION_TEXT, |out| {
        calls::explain_text_by_figure(figure, job, run, rule, place, out).value()
    })
}

/// The text that the call writes, which has at most so many characters.
fn text(most: usize, call: impl FnOnce(&mut [u8]) -> Result<u32, Error>) -> Result<Vec<u8>, Error> {
    let mut out = vec![0; most];
    let written = call(&mut out)?;
    out.truncate(written as usize);
    Ok(out)
}

fn lines_from(bytes: &[u8; LINES_LENGTH]) -> [Line; LINE_COUNT] {
    std::array::from_fn(|index| {
        let line = std::array::from_fn(|k| bytes[index * LINE_LENGTH + k]);
        Line::from_bytes(index as u8 + 1, &line)
    })
}

fn findings_from(bytes: &[u8]) -> Vec<Finding> {
    bytes
        .chunks_exact(FINDING_LENGTH)
        .map(|four| Finding::from_bytes(&[four[0], four[1], four[2], four[3]]))
        .collect()
}

fn distances_from(bytes: &[u8]) -> Vec<u32> {
    bytes
        .chunks_exact(DISTANCE_LENGTH)
        .map(|four| u32::from_le_bytes([four[0], four[1], four[2], four[3]]))
        .collect()
}
