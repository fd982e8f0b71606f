//! Jobs of a version whose findings are explained, without a figure and by one: the
//! samples, each rule as it is broken in each of its ways, random jobs, and damaged jobs
//! and figures.

mod certificates;
mod percents;
mod stacks;

use independent::job::{Job, Run, Version};
use independent::samples;

use super::outputs::fullest;
use super::{damaged, figures, random};
use crate::case::{ByFigure, Case, Expected, ToExplain};
use crate::extent::Explained;
use crate::versions::{in_version, longest, moved_factor, rebuilt_meter};

pub fn cases(version: Version, extent: &Explained) -> impl Iterator<Item = ToExplain> {
    let made = made(version).into_iter().flat_map(alone_and_by_figure);
    let random = random::cases(version, extent.random_jobs);
    let damaged = damaged::cases(version, extent.damaged_jobs);
    let good = figures::random::good(version, extent.random_figures);
    let spoilt = figures::random::spoilt(version, extent.spoilt_figures);
    made.chain(random.chain(damaged).map(ToExplain::from))
        .chain(good.chain(spoilt).map(ToExplain::from))
}

fn alone_and_by_figure((name, job): (String, Job)) -> [ToExplain; 2] {
    let figure = samples::made_up().bytes();
    let by_figure = format!("{name} by the sample");
    [
        Case::of_job(name, job.clone(), Expected::Read).into(),
        ByFigure::of_job(by_figure, figure, job, Expected::Read).into(),
    ]
}

/// By their names.
fn made(version: Version) -> Vec<(String, Job)> {
    let sample = |name: &str, sample| (format!("the {name}, explained"), sample);
    let in_version = |name, job| sample(name, in_version(version, job));
    let mut jobs = vec![
        in_version("worked job", samples::worked()),
        in_version("job of several runs", samples::several_runs()),
        in_version("limits of a weighing", samples::weighing_limits()),
        in_version("job of fewer points", samples::fewer_points()),
        in_version("job of more points", samples::more_points()),
        in_version("run with the most findings", fullest()),
        in_version("job without weighings", without_weighings()),
        in_version(
            "limits of the percent isokinetic",
            samples::percent_limits(),
        ),
        sample("factors that moved", moved_factor(version)),
        sample("rebuilt meter", rebuilt_meter(version)),
        sample("last run of the longest job", last_of_longest(version)),
    ];
    let others = [certificates::jobs(), percents::jobs(), stacks::jobs()].concat();
    jobs.extend(others.into_iter().map(|(name, job)| in_version(name, job)));
    jobs
}

/// With all 64 certificates but the last, which is that of its nozzle.
fn last_of_longest(version: Version) -> Job {
    let mut job = longest(version);
    job.runs.drain(..15);
    job.certificates.pop();
    job
}

fn without_weighings() -> Job {
    let mut job = samples::worked();
    job.runs[0].weighings.clear();
    job
}

/// The worked job with these runs, numbered from 1 on.
fn with_runs(runs: impl IntoIterator<Item = Run>) -> Job {
    let numbered = runs.into_iter().zip(1..);
    Job {
        runs: numbered
            .map(|(run, number)| Run { number, ..run })
            .collect(),
        ..samples::worked()
    }
}

fn worked_run() -> Run {
    samples::worked().runs.remove(0)
}
