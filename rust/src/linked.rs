//! The twelve calls of the archive linked into this program, over slices. Each
//! answers the library's own word, as [the package](crate) says.

mod library {
    extern "C" {
        pub fn leverbonnet_reduce(
            job: *const u8,
            job_len: usize,
            run: u16,
            lines: *mut u8,
            lines_len: usize,
            findings: *mut u8,
            findings_len: usize,
        ) -> u64;

        pub fn leverbonnet_reduce_by_figure(
            figure: *const u8,
            figure_len: usize,
            job: *const u8,
            job_len: usize,
            run: u16,
            lines: *mut u8,
            lines_len: usize,
            findings: *mut u8,
            findings_len: usize,
        ) -> u64;

        pub fn leverbonnet_run_count(job: *const u8, job_len: usize) -> u64;

        pub fn leverbonnet_run_number(job: *const u8, job_len: usize, index: u16) -> u64;

        pub fn leverbonnet_round_layout(
            points: u16,
            diameter: u16,
            nozzle: u16,
            out: *mut u8,
            out_len: usize,
        ) -> u64;

        pub fn leverbonnet_rect_layout(
            points: u16,
            first: u16,
            second: u16,
            out: *mut u8,
            out_len: usize,
        ) -> u64;

        pub fn leverbonnet_sheet_text(
            job: *const u8,
            job_len: usize,
            out: *mut u8,
            out_len: usize,
        ) -> u64;

        pub fn leverbonnet_sheet_text_by_figure(
            figure: *const u8,
            figure_len: usize,
            job: *const u8,
            job_len: usize,
            out: *mut u8,
            out_len: usize,
        ) -> u64;

        pub fn leverbonnet_explain(
            job: *const u8,
            job_len: usize,
            run: u16,
            rule: u16,
            place: u16,
            out: *mut u8,
            out_len: usize,
        ) -> u64;

        pub fn leverbonnet_explain_by_figure(
            figure: *const u8,
            figure_len: usize,
            job: *const u8,
            job_len: usize,
            run: u16,
            rule: u16,
            place: u16,
            out: *mut u8,
            out_len: usize,
        ) -> u64;

        pub fn leverbonnet_explain_text(
            job: *const u8,
            job_len: usize,
            run: u16,
            rule: u16,
            place: u16,
            out: *mut u8,
            out_len: usize,
        ) -> u64;

        pub fn leverbonnet_explain_text_by_figure(
            figure: *const u8,
            figure_len: usize,
            job: *const u8,
            job_len: usize,
            run: u16,
            rule: u16,
            place: u16,
            out: *mut u8,
            out_len: usize,
        ) -> u64;
    }
}

/// Works the run of that number into `lines` (20 of 9 bytes) and `findings` (4
/// bytes each). Succeeds with the number of findings, plus 65,536 if accepted.
pub fn reduce(job: &[u8], run_number: u16, lines: &mut [u8], findings: &mut [u8]) -> u64 {
    // SAFETY: each pointer comes with the length of the slice it heads, the
    // borrows keep the slices alive and apart, and the library keeps no pointer.
    unsafe {
        library::leverbonnet_reduce(
            job.as_ptr(),
            job.len(),
            run_number,
            lines.as_mut_ptr(),
            lines.len(),
            findings.as_mut_ptr(),
            findings.len(),
        )
    }
}

/// As [`reduce`], with the figure in place of the house rule's 24 and 25 points. A
/// bad figure is refused before the job is read.
pub fn reduce_by_figure(
    figure: &[u8],
    job: &[u8],
    run_number: u16,
    lines: &mut [u8],
    findings: &mut [u8],
) -> u64 {
    // SAFETY: each pointer comes with the length of the slice it heads, the
    // borrows keep the slices alive and apart from what is written, and the
    // library keeps no pointer.
    unsafe {
        library::leverbonnet_reduce_by_figure(
            figure.as_ptr(),
            figure.len(),
            job.as_ptr(),
            job.len(),
            run_number,
            lines.as_mut_ptr(),
            lines.len(),
            findings.as_mut_ptr(),
            findings.len(),
        )
    }
}

/// Succeeds with the number of runs.
pub fn run_count(job: &[u8]) -> u64 {
    // SAFETY: the pointer heads a slice of that length, and is not kept.
    unsafe { library::leverbonnet_run_count(job.as_ptr(), job.len()) }
}

/// Succeeds with the number of the run at that index, counted from 0; past the
/// last run, refusal 10.
pub fn run_number(job: &[u8], index: u16) -> u64 {
    // SAFETY: the pointer heads a slice of that length, and is not kept.
    unsafe { library::leverbonnet_run_number(job.as_ptr(), job.len(), index) }
}

/// Writes the distances of the points on a round stack's diameter, u32 each.
/// Succeeds with the number of bytes written.
pub fn round_layout(points: u16, diameter: u16, nozzle: u16, out: &mut [u8]) -> u64 {
    // SAFETY: the pointer heads a slice of that length, and is not kept.
    unsafe {
        library::leverbonnet_round_layout(points, diameter, nozzle, out.as_mut_ptr(), out.len())
    }
}

/// Writes the centers of a rectangular stack's cells, two u32 each. Succeeds
/// with the number of bytes written.
pub fn rect_layout(points: u16, first: u16, second: u16, out: &mut [u8]) -> u64 {
    // SAFETY: the pointer heads a slice of that length, and is not kept.
    unsafe { library::leverbonnet_rect_layout(points, first, second, out.as_mut_ptr(), out.len()) }
}

/// Writes the characters that the program `sheet` prints for a job that is read.
/// Succeeds with how many there are; [`MOST_TEXT`](crate::MOST_TEXT) bytes always
/// suffice.
pub fn sheet_text(job: &[u8], out: &mut [u8]) -> u64 {
    // SAFETY: each pointer comes with the length of the slice it heads, the
    // borrows keep the slices alive and apart, and the library keeps no pointer.
    unsafe { library::leverbonnet_sheet_text(job.as_ptr(), job.len(), out.as_mut_ptr(), out.len()) }
}

/// As [`sheet_text`], with the figure in place of the house rule's 24 and 25 points.
/// A bad figure is refused before the job is read.
pub fn sheet_text_by_figure(figure: &[u8], job: &[u8], out: &mut [u8]) -> u64 {
    // SAFETY: each pointer comes with the length of the slice it heads, the
    // borrows keep the slices alive and apart from what is written, and the
    // library keeps no pointer.
    unsafe {
        library::leverbonnet_sheet_text_by_figure(
            figure.as_ptr(),
            figure.len(),
            job.as_ptr(),
            job.len(),
            out.as_mut_ptr(),
            out.len(),
        )
    }
}

/// Explains the finding of that rule at that place in the run of that number, as
/// bytes. Succeeds with how many are written; refusal 15 if the run does not have
/// the finding. [`MOST_EXPLANATION`](crate::MOST_EXPLANATION) bytes always suffice.
pub fn explain(job: &[u8], run: u16, rule: u16, place: u16, out: &mut [u8]) -> u64 {
    explained(library::leverbonnet_explain, job, run, rule, place, out)
}

/// As [`explain`], of the findings that the run has with the figure in place of the
/// house rule's 24 and 25 points. A bad figure is refused before the job is read.
pub fn explain_by_figure(
    figure: &[u8],
    job: &[u8],
    run: u16,
    rule: u16,
    place: u16,
    out: &mut [u8],
) -> u64 {
    let call = library::leverbonnet_explain_by_figure;
    explained_by_figure(call, figure, job, run, rule, place, out)
}

/// As [`explain`], as text: the finding's line of the sheet, and what explains it
/// under it. [`MOST_EXPLANATION_TEXT`](crate::MOST_EXPLANATION_TEXT) bytes always
/// suffice.
pub fn explain_text(job: &[u8], run: u16, rule: u16, place: u16, out: &mut [u8]) -> u64 {
    explained(
        library::leverbonnet_explain_text,
        job,
        run,
        rule,
        place,
        out,
    )
}

/// As [`explain_text`], of the findings that the run has with the figure in place of
/// the house rule's 24 and 25 points. A bad figure is refused before the job is read.
pub fn explain_text_by_figure(
    figure: &[u8],
    job: &[u8],
    run: u16,
    rule: u16,
    place: u16,
    out: &mut [u8],
) -> u64 {
    let call = library::leverbonnet_explain_text_by_figure;
    explained_by_figure(call, figure, job, run, rule, place, out)
}

/// A call of the library that explains a finding.
type Explains = unsafe extern "C" fn(*const u8, usize, u16, u16, u16, *mut u8, usize) -> u64;

fn explained(call: Explains, job: &[u8], run: u16, rule: u16, place: u16, out: &mut [u8]) -> u64 {
    let (start, length) = (job.as_ptr(), job.len());
    // SAFETY: each pointer comes with the length of the slice it heads, the
    // borrows keep the slices alive and apart, and the library keeps no pointer.
    unsafe { call(start, length, run, rule, place, out.as_mut_ptr(), out.len()) }
}

/// One that takes a figure before the job.
type ExplainsByFigure =
    unsafe extern "C" fn(*const u8, usize, *const u8, usize, u16, u16, u16, *mut u8, usize) -> u64;

fn explained_by_figure(
    call: ExplainsByFigure,
    figure: &[u8],
    job: &[u8],
    run: u16,
    rule: u16,
    place: u16,
    out: &mut [u8],
) -> u64 {
    // SAFETY: each pointer comes with the length of the slice it heads, the
    // borrows keep the slices alive and apart from what is written, and the
    // library keeps no pointer.
    unsafe {
        call(
            figure.as_ptr(),
            figure.len(),
            job.as_ptr(),
            job.len(),
            run,
            rule,
            place,
            out.as_mut_ptr(),
            out.len(),
        )
    }
}
