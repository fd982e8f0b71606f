//! Safe Rust calls on the proved library, over Rust types:
//!
//! | Call | Gives |
//! |---|---|
//! | [`run_numbers`] | the numbers of a job's runs |
//! | [`reduce_run`] | a run's twenty lines, its findings, and whether it stands |
//! | [`sheet_text`] | the plain sheets of a whole job |
//! | [`explain_finding`] | why a run has a finding: the numbers that the rule compares, and the certificate days |
//! | [`explanation_text`] | the same as text |
//! | [`reduce_run_by_figure`], [`sheet_text_by_figure`], [`explain_finding_by_figure`], [`explanation_text_by_figure`] | the same, with a figure in place of the house rule's 24 and 25 points |
//! | [`round_distances`], [`rect_distances`] | a traverse layout |
//!
//! Each gives what succeeded, or an [`Error`]: the library's [`Refusal`], or why it
//! was not reached.
//!
//! A job is of version 1 or of version 2, and every call reads both. Where the
//! meter's factor moved by more than 5 percent, the factor Y and the [`Class`] of the
//! finding go by the version; nothing else of a run does.
//!
//! A figure is a file of its own, an agency's steps of figure 1-1. The number of points
//! that it asks for stands in place of the house rule's 24 and 25 of rule 9, and nothing
//! else of a run goes by it. One that is not in order is refused, with 14, before the
//! job is read; then come the job's own refusals, 1 to 8, then 10, then 15 for a finding
//! that the run does not have, then 9. Without a figure there is no 14.
//!
//! [`Reduced`], [`Line`], [`Finding`] and [`Refusal`] display themselves in words,
//! [`Refusal::in_job`] names the field that a job is refused for and
//! [`Refusal::in_figure`] that of a figure. All names and sentences stand in
//! [`texts`], the fields of a job file and of a figure in [`field`].
//! `examples/runs.rs` is a whole program over all runs of a job.
//!
//! ```no_run
//! # fn main() -> Result<(), Box<dyn std::error::Error>> {
//! let job = std::fs::read("examples/worked.job")?;
//! for number in leverbonnet::run_numbers(&job)? {
//!     println!("{}", leverbonnet::reduce_run(&job, number)?);
//! }
//! # Ok(())
//! # }
//! ```
//!
//! # The two ways to the library
//!
//! - `linked`: the library's archive is part of the program. The archive is for
//!   x86-64, and the module `linked` is there only where it can be linked.
//! - [`pipe`]: the program `calls` makes the same proved calls and is asked over a
//!   pipe. This can be done on every processor, under an emulator where it must be.
//!
//! The typed calls are linked where that can be; elsewhere, and with the feature
//! `piped` on x86-64 too, they go over the pipe.
//!
//! The calls of both modules lend slices and answer the library's own word: the
//! high 32 bits hold a refusal's number (0 for success), the low 32 bits its place
//! or what succeeded. Success leaves the bytes beyond an output as they were, and a
//! refusal changes none. [`Line::from_bytes`] and [`Finding::from_bytes`] read what
//! `reduce` writes, [`Explanation::from_bytes`] what `explain` writes.
//!
//! # Threads
//!
//! Every call may be made from any thread, and from several at once. Over the pipe
//! they wait for each other, since a process has one pipe for all of them. What is
//! said in words needs no call, and every type here may be sent and shared.

mod error;
mod explanation;
pub mod field;
mod finding;
mod line;
#[cfg(all(target_arch = "x86_64", not(feature = "piped")))]
pub mod linked;
mod outputs;
pub mod pipe;
mod reduced;
mod refusal;
pub mod texts;
mod typed;
mod way;

pub use error::Error;
pub use explanation::{CertificateDay, Condition, Explanation, Kind, Side, Way};
pub use finding::{Class, Finding};
pub use line::Line;
pub use outputs::{
    CONDITION_LENGTH, DAY_LENGTH, FINDING_LENGTH, LINES_LENGTH, LINE_COUNT, LINE_LENGTH,
    MOST_EXPLANATION, MOST_EXPLANATION_TEXT, MOST_FINDINGS, MOST_TEXT,
};
pub use reduced::Reduced;
pub use refusal::Refusal;
pub use typed::{
    explain_finding, explain_finding_by_figure, explanation_text, explanation_text_by_figure,
    rect_distances, reduce_run, reduce_run_by_figure, round_distances, run_numbers, sheet_text,
    sheet_text_by_figure,
};
