//! The command `leverbonnet`: prints the sheets of jobs, explains their findings, lays
//! out traverse points, installs itself. Its words are judged by the package `words`, and
//! every sheet, every explanation and every distance comes from a proved call.

mod calls;
mod drawing;
mod explain;
mod input;
mod install;
mod layout;
mod page;
mod sheet;
mod trouble;

use std::env;
use std::process::ExitCode;

use words::{Judged, Status, Work};

fn main() -> ExitCode {
    match words::judged(env::args_os().skip(1)) {
        Judged::Answered(status) => status.into(),
        Judged::Work(work) => {
            let status = done(work);
            // Where the calls go over a pipe, the program that makes them ends first.
            leverbonnet::pipe::end();
            status.into()
        }
    }
}

fn done(work: Work) -> Status {
    match work {
        Work::Sheet(sheet) => sheet::printed(&sheet),
        Work::Explain(explain) => explain::printed(&explain),
        Work::Layout(layout) => layout::printed(&layout),
        Work::Install(folder) => install::installed(folder.as_ref()),
    }
}
