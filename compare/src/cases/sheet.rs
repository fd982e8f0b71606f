//! Jobs for the program that prints sheets: fewer of each kind than the library
//! is given, since each starts a program.

use std::iter;

use independent::job::Version;
use independent::samples;

use super::{damaged, large, longest, random, worked};
use crate::case::{Case, Expected};
use crate::extent::Sheets;
use crate::versions::in_version;

pub fn cases(version: Version, extent: &Sheets) -> impl Iterator<Item = Case> {
    let several = in_version(version, samples::several_runs());
    let several = Case::of_job("the job of several runs".into(), several, Expected::Read);
    iter::once(several)
        .chain(worked::read(version))
        .chain(large::cases(version))
        .chain(worked::truncations(version).step_by(extent.one_truncation_in))
        .chain(worked::telling_changes(version).step_by(extent.one_change_in))
        .chain(longest::cases(version, extent.longest_jobs))
        .chain(random::cases(version, extent.random_jobs))
        .chain(damaged::cases(version, extent.damaged_jobs))
}
