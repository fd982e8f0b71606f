//! Every velocity head there is, each at the only point of a run: its root is then
//! line 13. The versions share them.

use independent::job::{Job, Run, Version};
use independent::samples;

use crate::case::{Case, Expected};
use crate::versions::in_version;

const MOST_HEAD: u16 = 10_000;
const RUNS_A_JOB: u16 = 16;

pub fn cases(version: Version, one_job_in: usize) -> impl Iterator<Item = Case> {
    let firsts = (0..=MOST_HEAD).step_by(usize::from(RUNS_A_JOB));
    // Version 2 begins with the second job.
    let firsts = firsts.skip(version as usize - 1).step_by(one_job_in);
    firsts.map(move |first| {
        let last = MOST_HEAD.min(first + RUNS_A_JOB - 1);
        let name = format!("velocity heads from {first} to {last}");
        let job = in_version(version, job(first, last));
        Case::of_job(name, job, Expected::Read)
    })
}

/// The worked job with a run for each of these heads.
fn job(first: u16, last: u16) -> Job {
    let worked = samples::worked();
    let runs = (first..=last).zip(1..);
    Job {
        runs: runs
            .map(|(head, number)| at_head(&worked.runs[0], head, number))
            .collect(),
        ..worked
    }
}

fn at_head(worked: &Run, head: u16, number: u16) -> Run {
    let mut run = Run {
        number,
        ..worked.clone()
    };
    run.points.truncate(1);
    run.points[0].velocity_head = head;
    run.points[0].seconds = worked.segments[0].seconds;
    run
}

#[cfg(test)]
mod tests {
    use super::*;

    #[test]
    fn every_head_stands_in_one_run_of_one_version() {
        let cases = Version::ALL
            .into_iter()
            .flat_map(|version| cases(version, 2));
        let runs = cases.flat_map(|case| case.subject.job.runs);
        let mut heads: Vec<u16> = runs.map(|run| run.points[0].velocity_head).collect();
        heads.sort();
        assert!(heads.into_iter().eq(0..=MOST_HEAD));
    }
}
