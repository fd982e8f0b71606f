//! The same calls over a pipe to the program `calls`, which makes them.
//!
//! The twelve functions here ask one program for the whole process, whose command
//! line is in the variable LEVERBONNET_CALLS, its words one a line. It is started
//! at the first call, and again at the next call after it was lost or [ended](end).
//! Each function answers the library's own word, as [the package](crate) says, or
//! why no answer came; then no lent byte was changed.
//!
//! A [`Pipe`] asks a program of its own, many calls at a time.

mod call;
mod client;
mod command;
mod request;
mod running;
mod shared;

pub use call::Call;
pub use client::Pipe;
pub use command::CommandLine;
pub use request::{Files, Reply, Request};
pub use shared::end;

/// Works the run of that number into `lines` (20 of 9 bytes) and `findings` (4
/// bytes each). Succeeds with the number of findings, plus 65,536 if accepted.
pub fn reduce(
    job: &[u8],
    run_number: u16,
    lines: &mut [u8],
    findings: &mut [u8],
) -> Result<u64, String> {
    let call = Call::Reduce {
        run: run_number,
        lines_len: lines.len(),
        findings_len: findings.len(),
    };
    shared::answer(call, job_alone(job), [lines, findings])
}

/// As [`reduce`], with the figure in place of the house rule's 24 and 25 points. A
/// bad figure is refused before the job is read.
pub fn reduce_by_figure(
    figure: &[u8],
    job: &[u8],
    run_number: u16,
    lines: &mut [u8],
    findings: &mut [u8],
) -> Result<u64, String> {
    let call = Call::ReduceByFigure {
        run: run_number,
        lines_len: lines.len(),
        findings_len: findings.len(),
    };
    shared::answer(call, Files { figure, job }, [lines, findings])
}

/// Succeeds with the number of runs.
pub fn run_count(job: &[u8]) -> Result<u64, String> {
    shared::answer(Call::RunCount, job_alone(job), [&mut [], &mut []])
}

/// Succeeds with the number of the run at that index, counted from 0; past the
/// last run, refusal 10.
pub fn run_number(job: &[u8], index: u16) -> Result<u64, String> {
    let call = Call::RunNumber { index };
    shared::answer(call, job_alone(job), [&mut [], &mut []])
}

/// Writes the distances of the points on a round stack's diameter, u32 each.
/// Succeeds with the number of bytes written.
pub fn round_layout(
    points: u16,
    diameter: u16,
    nozzle: u16,
    out: &mut [u8],
) -> Result<u64, String> {
    let call = Call::RoundLayout {
        points,
        diameter,
        nozzle,
        out_len: out.len(),
    };
    shared::answer(call, job_alone(&[]), [out, &mut []])
}

/// Writes the centers of a rectangular stack's cells, two u32 each. Succeeds
/// with the number of bytes written.
pub fn rect_layout(points: u16, first: u16, second: u16, out: &mut [u8]) -> Result<u64, String> {
    let call = Call::RectLayout {
        points,
        first,
        second,
        out_len: out.len(),
    };
    shared::answer(call, job_alone(&[]), [out, &mut []])
}

/// Writes the characters that the program `sheet` prints for a job that is read.
/// Succeeds with how many there are; [`MOST_TEXT`](crate::MOST_TEXT) bytes always
/// suffice.
pub fn sheet_text(job: &[u8], out: &mut [u8]) -> Result<u64, String> {
    let out_len = out.len();
    let call = Call::SheetText { out_len };
    shared::answer(call, job_alone(job), [out, &mut []])
}

/// As [`sheet_text`], with the figure in place of the house rule's 24 and 25 points.
/// A bad figure is refused before the job is read.
pub fn sheet_text_by_figure(figure: &[u8], job: &[u8], out: &mut [u8]) -> Result<u64, String> {
    let out_len = out.len();
    let call = Call::SheetTextByFigure { out_len };
    shared::answer(call, Files { figure, job }, [out, &mut []])
}

/// Explains the finding of that rule at that place in the run of that number, as
/// bytes. Succeeds with how many are written; refusal 15 if the run does not have
/// the finding. [`MOST_EXPLANATION`](crate::MOST_EXPLANATION) bytes always suffice.
pub fn explain(job: &[u8], run: u16, rule: u16, place: u16, out: &mut [u8]) -> Result<u64, String> {
    let call = Call::Explain {
        run,
        rule,
        place,
        out_len: out.len(),
    };
    shared::answer(call, job_alone(job), [out, &mut []])
}

/// As [`explain`], of the findings that the run has with the figure in place of the
/// house rule's 24 and 25 points. A bad figure is refused before the job is read.
pub fn explain_by_figure(
    figure: &[u8],
    job: &[u8],
    run: u16,
    rule: u16,
    place: u16,
    out: &mut [u8],
) -> Result<u64, String> {
    let call = Call::ExplainByFigure {
        run,
        rule,
        place,
        out_len: out.len(),
    };
    shared::answer(call, Files { figure, job }, [out, &mut []])
}

/// As [`explain`], as text: the finding's line of the sheet, and what explains it
/// under it. [`MOST_EXPLANATION_TEXT`](crate::MOST_EXPLANATION_TEXT) bytes always
/// suffice.
pub fn explain_text(
    job: &[u8],
    run: u16,
    rule: u16,
    place: u16,
    out: &mut [u8],
) -> Result<u64, String> {
    let call = Call::ExplainText {
        run,
        rule,
        place,
        out_len: out.len(),
    };
    shared::answer(call, job_alone(job), [out, &mut []])
}

/// As [`explain_text`], of the findings that the run has with the figure in place of
/// the house rule's 24 and 25 points. A bad figure is refused before the job is read.
pub fn explain_text_by_figure(
    figure: &[u8],
    job: &[u8],
    run: u16,
    rule: u16,
    place: u16,
    out: &mut [u8],
) -> Result<u64, String> {
    let call = Call::ExplainTextByFigure {
        run,
        rule,
        place,
        out_len: out.len(),
    };
    shared::answer(call, Files { figure, job }, [out, &mut []])
}

/// For a call that takes no figure.
fn job_alone(job: &[u8]) -> Files<'_> {
    Files { figure: &[], job }
}
