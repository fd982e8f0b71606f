//! Prints each run of a job in words. The job is the file named as the only
//! argument, or standard input.

use std::error::Error;
use std::io::{stdin, stdout, Read, Write};
use std::process::ExitCode;
use std::{env, fs};

fn main() -> ExitCode {
    match print_runs() {
        Ok(()) => ExitCode::SUCCESS,
        Err(trouble) => {
            eprintln!("{trouble}");
            match trouble.downcast_ref() {
                Some(leverbonnet::Error::Refused(_)) => ExitCode::from(2),
                _ => ExitCode::FAILURE,
            }
        }
    }
}

fn print_runs() -> Result<(), Box<dyn Error>> {
    let mut files = env::args_os().skip(1);
    let job: Vec<u8> = match (files.next(), files.next()) {
        (None, _) => stdin().lock().bytes().collect::<Result<_, _>>()?,
        (Some(file), None) => fs::read(file)?,
        _ => return Err("name one file, or none".into()),
    };
    for (index, number) in leverbonnet::run_numbers(&job)?.into_iter().enumerate() {
        let between = if index == 0 { "" } else { "\n" };
        let run = leverbonnet::reduce_run(&job, number)?;
        writeln!(stdout(), "{between}{run}")?;
    }
    Ok(stdout().flush()?)
}
