//! Jobs of a version by figures: the samples, either side of every step, every number of
//! points, a figure with each of its bytes changed, cut at each of them, and random ones,
//! damaged or not.

mod changed;
pub mod random;
mod steps;

use independent::figure::Figure;
use independent::job::{Job, Version};
use independent::samples;

use crate::case::{ByFigure, Expected};
use crate::extent::Figures;
use crate::versions::{in_version, longest};

/// Longer than a figure that is sent over a pipe.
const LARGE: usize = 5_000;

pub fn cases(version: Version, extent: &Figures) -> impl Iterator<Item = ByFigure> + '_ {
    of_samples(version)
        .into_iter()
        .chain(in_large_files(version))
        .chain(steps::about_each(version, extent.one_stack_in))
        .chain(steps::each_number(version, extent.one_number_in))
        .chain(changed::points_outside(version))
        .chain(changed::truncations(version, extent.one_truncation_in))
        .chain(changed::changes(version, extent))
        .chain(random::good(version, extent.random_figures))
        .chain(random::spoilt(version, extent.spoilt_figures))
}

fn of_samples(version: Version) -> Vec<ByFigure> {
    let by_sample = |name: &str, job, expected| {
        ByFigure::of_job(name.into(), samples::made_up().bytes(), job, expected)
    };
    let read = |name, sample: Job| by_sample(name, in_version(version, sample), Expected::Read);
    let refused = in_version(version, samples::refused());
    vec![
        read("the worked job by the sample", samples::worked()),
        read(
            "the job of fewer points by the sample",
            samples::fewer_points(),
        ),
        read(
            "the job of more points by the sample",
            samples::more_points(),
        ),
        read(
            "the job of several runs by the sample",
            samples::several_runs(),
        ),
        by_sample(
            "the longest job by the sample",
            longest(version),
            Expected::Read,
        ),
        by_sample(
            "the refused job by the sample",
            refused,
            Expected::Refused(5),
        ),
    ]
}

fn in_large_files(version: Version) -> [ByFigure; 2] {
    let mut followed = samples::made_up().bytes();
    followed.resize(LARGE, 0);
    [
        ("5,000 zeros as a figure", vec![0; LARGE]),
        ("the sample in 5,000 bytes", followed),
    ]
    .map(|(name, figure)| {
        let job = in_version(version, samples::fewer_points());
        ByFigure::of_job(name.into(), figure, job, Expected::Refused(14))
    })
}

/// The case of a job that is read by a figure that is read.
fn both_read(name: String, figure: &Figure, job: Job) -> ByFigure {
    ByFigure::of_job(name, figure.bytes(), job, Expected::Read)
}
