//! The proved calls on a job, by a figure or without one.

use leverbonnet::{Error, Reduced};

/// Whether the figure is in order: else its refusal. The proved call itself judges
/// it, and no second reader. It is made on an empty job: refused for that job, it
/// found the figure good before.
pub fn judged(figure: &[u8]) -> Result<(), Error> {
    match leverbonnet::sheet_text_by_figure(figure, &[]) {
        Err(Error::Refused(refusal)) if !refusal.is_about_the_figure() => Ok(()),
        other => other.map(drop),
    }
}

/// The plain sheets.
pub fn plain(figure: Option<&[u8]>, job: &[u8]) -> Result<Vec<u8>, Error> {
    match figure {
        Some(figure) => leverbonnet::sheet_text_by_figure(figure, job),
        None => leverbonnet::sheet_text(job),
    }
}

/// Each run in file order, with a blank line between two.
pub fn in_words(figure: Option<&[u8]>, job: &[u8]) -> Result<Vec<u8>, Error> {
    let numbers = leverbonnet::run_numbers(job)?.into_iter();
    let runs = numbers.map(|number| Ok(reduced(figure, job, number)?.to_string()));
    let runs: Vec<String> = runs.collect::<Result<_, Error>>()?;
    Ok((runs.join("\n\n") + "\n").into_bytes())
}

pub fn reduced(figure: Option<&[u8]>, job: &[u8], run: u16) -> Result<Reduced, Error> {
    match figure {
        Some(figure) => leverbonnet::reduce_run_by_figure(figure, job, run),
        None => leverbonnet::reduce_run(job, run),
    }
}
