//! The fields of a job file in either version and those of a figure, and the clause
//! that names the one a refusal is about. The tables are those of docs/RULES.md, row
//! by row.
//!
//! Nothing is judged here again: what the proved call found is put into words, as
//! far as the file's bytes bear it out.

mod figure;
mod numbers;
mod order;
mod part;
mod ranges;
mod rows;
mod seconds;
mod version;
mod walk;

pub use rows::{
    Field, Instrument, Record, Type, CERTIFICATE, FIGURE_HEADER, HEADER, INSTRUMENTS, POINT, RUN,
    SEGMENT, STEP, STEPS, WEIGHING,
};
pub use version::Version;

pub(crate) use figure::clause as figure_clause;

use crate::refusal::Refusal;
use part::{Part, Which};

/// What is wrong with the job and where, as a clause. `None` where the job's bytes
/// do not bear the refusal out, or where its own cause says all there is to say.
pub(crate) fn clause(refusal: &Refusal, job: &[u8]) -> Option<String> {
    let place = refusal.place as usize;
    let parts = walk::parts(job);
    match refusal.number {
        1 if place == job.len() => incomplete(parts.last()?),
        2..=5 => {
            let part = parts.iter().rfind(|part| part.start <= place)?;
            ranges::out_of_range(part, place - part.start, refusal.number)
        }
        6 => {
            let index = starting_at(&parts, place)?;
            order::repeated(&parts[..index], &parts[index])
        }
        7 => {
            let index = starting_at(&parts, place)?;
            seconds::not_in_order(&parts[index], &parts[index + 1..])
        }
        _ => None,
    }
}

fn starting_at(parts: &[Part], place: usize) -> Option<usize> {
    parts.iter().position(|part| part.start == place)
}

fn incomplete(part: &Part) -> Option<String> {
    let name = part.which.name();
    match part.which {
        _ if part.is_complete() => None,
        Which::Run(_) => {
            let length = part.length();
            Some(format!(
                "the file ends before {name}'s {length} bytes are complete"
            ))
        }
        _ => Some(format!("the file ends before {name} is complete")),
    }
}
