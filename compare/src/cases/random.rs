//! Random jobs of a version that are read.

use independent::job::Version;

use crate::case::{Case, Expected};
use crate::invent;
use crate::random::Random;

const SEED: u64 = 0x20_0000;

pub fn cases(version: Version, count: u64) -> impl Iterator<Item = Case> {
    (0..count).map(move |k| {
        let job = invent::job(&mut Random::for_case(SEED, version, k), version);
        Case::of_job(format!("random job {k}"), job, Expected::Read)
    })
}
