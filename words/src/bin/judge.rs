//! Judges the words of the command before anything is proved, and answers what
//! needs no proved program.

use std::env;
use std::process::ExitCode;

use words::Judged;

/// The status that says: this is for the proved program.
const FOR_THE_PROGRAM: u8 = 100;

fn main() -> ExitCode {
    match words::judged(env::args_os().skip(1)) {
        Judged::Answered(status) => status.into(),
        Judged::Work(_) => ExitCode::from(FOR_THE_PROGRAM),
    }
}
