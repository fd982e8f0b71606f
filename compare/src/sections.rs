//! The sections of the comparison, in two halves that take about as long. Both are
//! compared at once, each with the proved library to itself.

use std::{panic, thread};

use independent::job::Version;
use leverbonnet::pipe::CommandLine;

use crate::arguments::Arguments;
use crate::cases;
use crate::proved::Proved;
use crate::report::Failure;
use crate::runner::Section;
use crate::tally::Tally;

/// What one half came to: what a section should have reached and did not, and all that
/// was counted.
struct Half {
    unreached: Vec<String>,
    all: Tally,
}

/// Compares everything. Answers what should have been reached and was not.
pub fn unreached(given: &Arguments) -> Result<Vec<String>, String> {
    let calls = given.calls.as_ref();
    let (read, others) = thread::scope(|scope| {
        let others = scope.spawn(|| alone(calls, |proved| others(proved, given.sheet.as_ref())));
        let read = alone(calls, read_jobs);
        let others = others.join();
        (read, others.unwrap_or_else(|why| panic::resume_unwind(why)))
    });
    let (read, others) = (read?, others?);

    let mut all = read.all;
    all.add(&others.all);
    println!("all refusals: {}", all.refusals_text());
    let mut unreached = read.unreached;
    unreached.extend(others.unreached);
    unreached.extend(all.unreached_refusals(11..=11));
    Ok(unreached)
}

/// A half with the proved library to itself.
fn alone(
    calls: Option<&CommandLine>,
    half: impl Fn(&Proved) -> Result<Half, Failure>,
) -> Result<Half, String> {
    let proved = Proved::reached(calls.cloned())?;
    let compared = half(&proved).map_err(|failure| failure.to_string())?;
    proved.ended()?;
    Ok(compared)
}

/// The cases of one version, and then those of the other.
fn in_both<Cases: IntoIterator>(
    cases: impl Fn(Version) -> Cases,
) -> impl Iterator<Item = Cases::Item> {
    Version::ALL.into_iter().flat_map(cases)
}

/// The worked job and what it becomes by a byte, random jobs that are read, and findings
/// explained.
fn read_jobs(proved: &Proved) -> Result<Half, Failure> {
    let extent = proved.extent();
    let mut all = Tally::default();
    let worked = in_both(|version| {
        cases::worked::read(version)
            .into_iter()
            .chain(cases::worked::truncations(version))
            .chain(cases::worked::changes(version, extent.every_value))
    });
    all.add(&Section::new("worked job").library(proved, worked)?);

    let random = in_both(|version| cases::random::cases(version, extent.random_jobs));
    let random = Section::new("random jobs").library(proved, random)?;
    println!("{random}");
    all.add(&random);

    let explained = in_both(|version| cases::explained::cases(version, &extent.explained));
    let explained = Section::new("findings explained").explained(proved, explained)?;
    println!("{}", explained.explained_text());
    all.add(&explained);
    let mut unreached = random.unreached_by_reading();
    unreached.extend(explained.unreached_by_explaining());
    Ok(Half { unreached, all })
}

/// Damaged jobs, jobs by figures, every velocity head, the longest jobs, large files, outputs of many
/// lengths, layouts, and printed sheets.
fn others(proved: &Proved, sheet: Option<&CommandLine>) -> Result<Half, Failure> {
    let extent = proved.extent();
    let mut all = Tally::default();
    let damaged = in_both(|version| cases::damaged::cases(version, extent.damaged_jobs));
    let damaged = Section::new("damaged jobs").library(proved, damaged)?;
    println!("{}", damaged.refused_text());
    all.add(&damaged);

    let figures = in_both(|version| cases::figures::cases(version, &extent.figures));
    let figures = Section::new("jobs by figures").by_figure(proved, figures)?;
    println!("{}", figures.figures_text());
    all.add(&figures);

    let heads = in_both(|version| cases::heads::cases(version, extent.one_job_of_heads_in));
    all.add(&Section::new("velocity heads").library(proved, heads)?);
    let longest = in_both(|version| cases::longest::cases(version, extent.longest_jobs));
    all.add(&Section::new("longest jobs").library(proved, longest)?);
    let large = in_both(cases::large::cases);
    all.add(&Section::new("large files").library(proved, large)?);
    let outputs = in_both(cases::outputs::cases);
    all.add(&Section::new("output lengths").outputs(proved, outputs)?);
    all.add(&Section::new("layouts").layouts(proved, cases::layouts::calls(extent))?);
    if let Some(program) = sheet {
        let cases = in_both(|version| cases::sheet::cases(version, &extent.sheets));
        Section::new("printed sheets").sheets(program, cases)?;
    }
    let mut unreached = damaged.unreached_by_refusing();
    unreached.extend(figures.unreached_by_figures());
    Ok(Half { unreached, all })
}

#[cfg(test)]
mod tests {
    use super::*;
    use crate::agreement::INDEPENDENT;
    use crate::extent::LIGHT;

    #[test]
    fn the_fewest_random_jobs_reach_all_that_they_must() {
        let proved = Proved::Linked(INDEPENDENT);
        let random = in_both(|version| cases::random::cases(version, LIGHT.random_jobs));
        let random = Section::new("random jobs").library(&proved, random);
        let random = random.unwrap_or_else(|failure| panic!("{failure}"));
        println!("{random}");
        assert_eq!(random.unreached_by_reading(), Vec::<String>::new());
    }

    #[test]
    fn the_fewest_findings_explained_reach_all_that_they_must() {
        let proved = Proved::Linked(INDEPENDENT);
        let explained = in_both(|version| cases::explained::cases(version, &LIGHT.explained));
        let explained = Section::new("findings explained").explained(&proved, explained);
        let explained = explained.unwrap_or_else(|failure| panic!("{failure}"));
        println!("{}", explained.explained_text());
        assert_eq!(explained.unreached_by_explaining(), Vec::<String>::new());
    }

    #[test]
    fn the_fewest_jobs_by_figures_reach_all_that_they_must() {
        let proved = Proved::Linked(INDEPENDENT);
        let figures = in_both(|version| cases::figures::cases(version, &LIGHT.figures));
        let figures = Section::new("jobs by figures").by_figure(&proved, figures);
        let figures = figures.unwrap_or_else(|failure| panic!("{failure}"));
        println!("{}", figures.figures_text());
        assert_eq!(figures.unreached_by_figures(), Vec::<String>::new());
    }
}
