//! `definitions [PROJECT]`: says what is out of order in the definitions and
//! laws of a project, the present folder without a word. Status 1 if anything
//! is, or if the project can not be read.

use std::path::PathBuf;
use std::process::ExitCode;

fn main() -> ExitCode {
    let project = std::env::args_os()
        .nth(1)
        .map_or_else(|| PathBuf::from("."), PathBuf::from);
    match definitions::complaints(&project) {
        Ok(found) if found.is_empty() => ExitCode::SUCCESS,
        Ok(found) => {
            for complaint in found {
                println!("{}", complaint);
            }
            ExitCode::FAILURE
        }
        Err(error) => {
            eprintln!(
                "The definitions of {} can not be read: {}.",
                project.display(),
                error
            );
            ExitCode::FAILURE
        }
    }
}
