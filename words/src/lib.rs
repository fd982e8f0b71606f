//! What may be asked of the command `leverbonnet`. Its words are judged here,
//! and what needs no proved call is answered here as well: help, the version,
//! complaints, and the start of the gate. So the program `judge`, which is
//! built in seconds, can answer before anything is proved.

mod command;
mod complaint;
mod explain;
mod gate;
mod given;
mod help;
mod install;
mod layout;
mod number;
mod sheet;
mod size;
mod source;
mod status;
mod test;
mod version;

pub mod standard;

use std::ffi::OsString;

pub use crate::complaint::shown;
pub use crate::explain::{Explain, Part};
pub use crate::gate::project;
pub use crate::layout::{Layout, Stack};
pub use crate::sheet::Sheet;
pub use crate::source::Source;
pub use crate::status::Status;

use crate::command::Asked;

/// What only the proved program can do.
#[derive(Debug, PartialEq, Eq)]
pub enum Work {
    Sheet(Sheet),
    Explain(Explain),
    Layout(Layout),
    /// The folder to put the program in.
    Install(OsString),
}

/// The words judged: answered already, or work for the proved program.
pub enum Judged {
    Answered(Status),
    Work(Work),
}

/// Judges the words after the program's name. What needs no proved call is
/// answered at once; for `test` this process becomes the gate.
pub fn judged(words: impl Iterator<Item = OsString>) -> Judged {
    let answer = match command::asked(words.collect()) {
        Ok(Asked::Work(work)) => return Judged::Work(work),
        Ok(Asked::Text(text)) => standard::print(text.as_bytes()),
        Ok(Asked::Test) => gate::become_it(),
        Err(complaint) => complaint.told(),
    };
    Judged::Answered(answer)
}
