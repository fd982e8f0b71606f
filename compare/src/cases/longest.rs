//! Jobs of a version with every count at its greatest, all sixteen runs of each.

use independent::job::Version;

use crate::case::{Case, Change, Expected};
use crate::invent;
use crate::random::Random;
use crate::versions::longest;

const SEED: u64 = 0x10_0000;

fn length(version: Version) -> usize {
    match version {
        Version::One => 17_161,
        Version::Two => 17_273,
    }
}

pub fn cases(version: Version, random_jobs: u64) -> impl Iterator<Item = Case> {
    let sample = Case::of_job("the longest job".into(), longest(version), Expected::Read);
    let changed = |name: &str, change: Change, number: u32| {
        let expected = Expected::Refused(number);
        Case::changed(name.into(), longest(version), vec![change], expected)
    };
    let length = length(version);
    let cut = Change::Cut { length: length - 1 };
    let one_more = Change::Append(vec![0]);
    let random = (0..random_jobs).map(move |k| {
        let job = invent::longest_job(&mut Random::for_case(SEED, version, k), version);
        assert_eq!(job.bytes().len(), length, "every count is at its greatest");
        Case::of_job(format!("longest random job {k}"), job, Expected::Read)
    });
    [
        sample,
        changed("the longest job less a byte", cut, 1),
        changed("the longest job and a byte", one_more, 8),
    ]
    .into_iter()
    .chain(random)
}
