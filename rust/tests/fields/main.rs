//! What a refusal says of the job that it was given for, in either version, or of the
//! figure.

mod any_bytes;
mod changed_bytes;
mod early_ends;
mod figures;
mod letters;
mod other_refusals;
mod versions;

use leverbonnet::{run_numbers, Error, Refusal};

const WORKED: &[u8] = include_bytes!("../../../examples/worked.job");
const SEVERAL_RUNS: &[u8] = include_bytes!("../../../examples/several-runs.job");
const LONGEST: &[u8] = include_bytes!("../../../examples/longest.job");
const REFUSED: &[u8] = include_bytes!("../../../examples/refused.job");

/// Where the worked job and the one of several runs have their first two runs.
const WORKED_RUN: usize = 73;
const FIRST_RUN: usize = 121;
const SECOND_RUN: usize = 317;

fn refusal(job: &[u8]) -> Option<Refusal> {
    match run_numbers(job) {
        Ok(_) => None,
        Err(Error::Refused(refusal)) => Some(refusal),
        Err(unreached) => panic!("{unreached}"),
    }
}

fn told(job: &[u8]) -> String {
    match refusal(job) {
        Some(refusal) => {
            let (number, place) = (refusal.number, refusal.place);
            format!("{number} at {place}, {}", refusal.in_job(job))
        }
        None => "read".into(),
    }
}

/// The file with these bytes at that place.
fn changed(file: &[u8], place: usize, bytes: &[u8]) -> Vec<u8> {
    let mut file = file.to_vec();
    file[place..place + bytes.len()].copy_from_slice(bytes);
    file
}

fn with_number(file: &[u8], place: usize, number: u16) -> Vec<u8> {
    changed(file, place, &number.to_le_bytes())
}
