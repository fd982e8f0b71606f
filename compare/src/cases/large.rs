//! Files that no job comes near.

use independent::job::{Job, Version};
use independent::samples;

use crate::case::{Case, Change, Expected};
use crate::versions::{in_version, longest};

/// Longer than a pipe holds, than a request over one, and far longer than a job.
const LARGE: usize = 100_000;

/// No job at all, and jobs of that version with zeros behind them.
pub fn cases(version: Version) -> [Case; 3] {
    let worked = in_version(version, samples::worked());
    [
        Case::changed(
            "100,000 zeros".into(),
            worked.clone(),
            vec![Change::Cut { length: 0 }, zeros(LARGE)],
            Expected::Refused(2),
        ),
        in_large_file("the worked job in 100,000 bytes", worked),
        in_large_file("the longest job in 100,000 bytes", longest(version)),
    ]
}

fn in_large_file(name: &str, job: Job) -> Case {
    let rest = zeros(LARGE - job.bytes().len());
    Case::changed(name.into(), job, vec![rest], Expected::Refused(8))
}

fn zeros(length: usize) -> Change {
    Change::Append(vec![0; length])
}
