//! Random figures that are read, and jobs about their steps.

use std::collections::BTreeSet;

use independent::figure::{Figure, Step, MOST_RECTANGULAR, MOST_ROUND, MOST_STEPS};
use independent::job::{Job, Run};
use independent::{is_allowed, least_points};

use super::runs::MOST_POINTS;
use crate::random::Random;
use crate::site::{give_points, least_reaching};

pub fn figure(random: &mut Random) -> Figure {
    Figure {
        from_last: steps(random),
        to_next: steps(random),
    }
}

/// One, a few, or as many as there may be.
fn steps(random: &mut Random) -> Vec<Step> {
    let count = random.pick(&[1, 1, 2, 3, 4, 5, usize::from(MOST_STEPS)]);
    let mut distances = BTreeSet::new();
    while distances.len() < count {
        distances.insert(least_distance(random));
    }
    let round = never_rising(random, count, MOST_ROUND);
    let rectangular = never_rising(random, count, MOST_RECTANGULAR);
    let points = round.into_iter().zip(rectangular);
    let steps = distances.into_iter().zip(points);
    steps
        .map(|(least_distance, (round, rectangular))| Step {
            least_distance,
            round,
            rectangular,
        })
        .collect()
}

/// Mostly a few diameters, often in halves, or anything.
fn least_distance(random: &mut Random) -> u16 {
    let distance = match random.below(8) {
        0 => random.near_ends(0, 65_535),
        1 | 2 => 50 * random.within(0..=20),
        _ => random.within(0..=1_000),
    };
    distance as u16
}

fn never_rising(random: &mut Random, count: usize, most: u8) -> Vec<u8> {
    let mut points: Vec<u8> = (0..count)
        .map(|_| random.near_ends(1, i64::from(most)) as u8)
        .collect();
    points.sort_by(|one, other| other.cmp(one));
    points
}

/// Moves the disturbances of most runs next to steps, and gives most about as many
/// points as they then need.
pub fn bring_to_steps(random: &mut Random, figure: &Figure, job: &mut Job) {
    for run in &mut job.runs {
        if random.percent(60) {
            run.from_last_disturbance = about_a_step(random, run, &figure.from_last);
        }
        if random.percent(60) {
            run.to_next_disturbance = about_a_step(random, run, &figure.to_next);
        }
        if random.percent(70) {
            let count = about_least_points(random, figure, run);
            give_points(run, count);
        }
    }
}

fn about_a_step(random: &mut Random, run: &Run, steps: &[Step]) -> u16 {
    let step = random.pick(steps);
    let about = least_reaching(run, step.least_distance) + random.pick(&[-1, -1, 0, 0, 1]);
    about.clamp(0, 65_535) as u16
}

/// The least number, the one that is allowed before it or behind it, or one less.
fn about_least_points(random: &mut Random, figure: &Figure, run: &Run) -> u16 {
    let least = least_points(run, Some(figure));
    let allowed = (1..=MOST_POINTS as u16).filter(|&points| is_allowed(run.shape, points));
    let (fewer, enough): (Vec<u16>, Vec<u16>) = allowed.partition(|&points| points < least);
    let before = fewer.last().copied().unwrap_or(least);
    random.pick(&[
        enough[0],
        before,
        *enough.get(1).unwrap_or(&least),
        least - 1,
    ])
}
