//! Random jobs of a version, damaged in one way, each way in turn, or in several at
//! once.

use independent::job::Version;

use crate::case::{Case, Expected, Subject};
use crate::invent;
use crate::random::Random;
use crate::spoil::SPOILS;

const SEED: u64 = 0x30_0000;

pub fn cases(version: Version, count: u64) -> impl Iterator<Item = Case> {
    (0..count).map(move |k| damaged(version, k))
}

fn damaged(version: Version, k: u64) -> Case {
    let mut random = Random::for_case(SEED, version, k);
    let mut subject = Subject {
        job: invent::short_job(&mut random, version),
        changes: vec![],
    };
    // Every third case shows which of several troubles is met first.
    let (damage, expected) = match k % 3 {
        0 => damaged_often(&mut random, &mut subject),
        _ => {
            let (damage, spoil) = SPOILS[(k / 3) as usize % SPOILS.len()];
            (damage.to_string(), spoil(&mut random, &mut subject))
        }
    };
    let Subject { job, changes } = subject;
    Case::changed(format!("damaged job {k}: {damage}"), job, changes, expected)
}

fn damaged_often(random: &mut Random, subject: &mut Subject) -> (String, Expected) {
    let mut damages = Vec::new();
    for _ in 0..random.pick(&[2, 2, 3]) {
        let (damage, spoil) = random.pick(&SPOILS);
        spoil(random, subject);
        damages.push(damage);
    }
    (damages.join(", then "), Expected::Either)
}
