//! Random figures beside random jobs, about the steps of the figure; and damaged ones,
//! also beside damaged jobs.

use independent::job::Version;

use super::both_read;
use crate::case::{ByFigure, Case, Expected, Subject};
use crate::invent::{self, figures};
use crate::random::Random;
use crate::spoil;
use crate::spoil::figures::{Drawn, SPOILS};

const GOOD_SEED: u64 = 0x50_0000;
const SPOILT_SEED: u64 = 0x60_0000;

pub fn good(version: Version, count: u64) -> impl Iterator<Item = ByFigure> {
    (0..count).map(move |k| {
        let mut random = Random::for_case(GOOD_SEED, version, k);
        let figure = figures::figure(&mut random);
        let mut job = invent::job(&mut random, version);
        figures::bring_to_steps(&mut random, &figure, &mut job);
        both_read(format!("random job {k} by a random figure"), &figure, job)
    })
}

pub fn spoilt(version: Version, count: u64) -> impl Iterator<Item = ByFigure> {
    (0..count).map(move |k| {
        let mut random = Random::for_case(SPOILT_SEED, version, k);
        let (damage, figure) = spoilt_figure(&mut random, k);
        let Subject { job, changes } = subject(&mut random, version, k);
        // What one damage does another may undo.
        let expected = match is_damaged_twice(k) {
            true => Expected::Either,
            false => Expected::Refused(14),
        };
        let name = format!("random job {k} by a damaged figure: {damage}");
        let case = Case::changed(name, job, changes, expected);
        ByFigure { figure, case }
    })
}

/// Every third, to show which of two troubles is met first.
fn is_damaged_twice(k: u64) -> bool {
    k % 3 == 0
}

/// In each way in turn.
fn spoilt_figure(random: &mut Random, k: u64) -> (String, Vec<u8>) {
    let mut drawn = Drawn {
        figure: figures::figure(random),
        changes: vec![],
    };
    let (damage, spoil) = SPOILS[k as usize % SPOILS.len()];
    spoil(random, &mut drawn);
    if !is_damaged_twice(k) {
        return (damage.into(), drawn.bytes());
    }
    let (another, spoil) = random.pick(&SPOILS);
    spoil(random, &mut drawn);
    (format!("{damage}, then {another}"), drawn.bytes())
}

/// Every other one damaged too.
fn subject(random: &mut Random, version: Version, k: u64) -> Subject {
    let mut subject = Subject {
        job: invent::short_job(random, version),
        changes: vec![],
    };
    if k % 2 == 0 {
        let (_, spoil) = random.pick(&spoil::SPOILS);
        spoil(random, &mut subject);
    }
    subject
}
