//! How a command ends.

use std::process::ExitCode;

/// From the best to the worst: of several files the worst counts.
#[derive(Clone, Copy, Debug, PartialEq, Eq, PartialOrd, Ord)]
pub enum Status {
    Done,
    /// A job, a figure or a layout was refused.
    Refused,
    /// Something went wrong: bad words, a file that can't be read, a text that
    /// can't be written, proved calls that can't be reached.
    Failed,
}

impl From<Status> for ExitCode {
    fn from(status: Status) -> ExitCode {
        ExitCode::from(match status {
            Status::Done => 0,
            Status::Failed => 1,
            Status::Refused => 2,
        })
    }
}
