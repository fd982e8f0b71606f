//! Compares the proved library, and the program `sheet`, with the independent
//! program, byte for byte, on jobs of either version, and fails where they disagree.
//! A job without letters is compared with the same in the other version, too, but for
//! its runs whose factor moved. The calls that take a figure are compared on jobs beside
//! figures, and findings are explained with and without them. What all of them reached is counted and shown; a count that must not be 0
//! fails it too.
//!
//!     --sheet COMMAND   the program `sheet` (or set SHEET)
//!     --library-only    leaves the program out, on purpose
//!     --calls COMMAND   a program that makes the library's calls over pipes (or
//!                       set LEVERBONNET_CALLS); without it the library is linked,
//!                       which can be done on x86-64
//!
//! A command is one argument with its words one a line, such as
//! `scripts/run-program --print` prints.

#![forbid(unsafe_code)]

mod agreement;
mod arguments;
mod call;
mod case;
mod cases;
mod check;
mod explanation;
mod extent;
mod fields;
mod invent;
mod proved;
mod random;
mod report;
mod runner;
mod sections;
mod shrink;
mod site;
mod spoil;
mod tally;
mod versions;

use std::process::ExitCode;

use crate::arguments::Arguments;

fn main() -> ExitCode {
    match compared() {
        Ok(agreement) => {
            println!("{agreement}");
            ExitCode::SUCCESS
        }
        Err(trouble) => {
            println!("{trouble}");
            ExitCode::FAILURE
        }
    }
}

/// What was found to agree, or why that cannot be said.
fn compared() -> Result<&'static str, String> {
    let given = Arguments::given()?;
    let unreached = sections::unreached(&given)?;
    if !unreached.is_empty() {
        return Err(format!("NOT REACHED: {}.", unreached.join("; ")));
    }
    match (given.sheet, given.library_only) {
        (Some(_), _) => Ok("The library and the program agree with the independent program."),
        (None, true) => Ok("The library agrees; the program sheet was not compared, as asked."),
        (None, false) => Err(
            "The library agrees, but the program sheet WAS NOT COMPARED: give its command \
             with --sheet, or ask for --library-only."
                .into(),
        ),
    }
}
